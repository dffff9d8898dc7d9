%% Erlang/OTP's own ets in long calls: ets_bulk:main() reads lines of WHAT KIND COUNT, prepares what the line names,
%% prints `ready`, waits for an empty line, makes the calls, and prints `done`. So the caller can take the processor time of
%% the calls alone.
-module(ets_bulk).
-export([main/0]).

main() ->
    case io:get_line("") of
        eof -> halt(0);
        Line ->
            [What, Kind, Count] = string:lexemes(string:trim(Line), " "),
            Call = prepared(What, list_to_atom(Kind), list_to_integer(Count)),
            erlang:garbage_collect(),
            io:format("ready~n"),
            _ = io:get_line(""),
            Table = Call(),
            io:format("done~n"),
            _ = ets:info(Table) =/= undefined andalso ets:delete(Table),
            main()
    end.

prepared("list", Kind, Count) ->
    Objects = objects(Count),
    fun() -> Table = ets:new(t, [Kind, public]), true = ets:insert(Table, Objects), Table end;
prepared("singly", Kind, Count) ->
    Objects = objects(Count),
    fun() -> Table = ets:new(t, [Kind, public]), singly(Objects, Table) end;
prepared("nothing", Kind, _) ->
    fun() -> ets:new(t, [Kind, public]) end;
prepared("one-key", Kind, Count) ->
    Objects = [{k, Number} || Number <- lists:seq(1, Count)],
    fun() -> Table = ets:new(t, [Kind, public]), singly(Objects, Table) end;
prepared(Removal, Kind, Count) ->
    Table = singly(objects(Count), ets:new(t, [Kind, public])),
    fun() -> removal(Removal, Table, Count), Table end.

removal("delete_all_objects", Table, _) -> true = ets:delete_all_objects(Table);
removal("delete", Table, _) -> true = ets:delete(Table);
removal("match_delete", Table, _) -> true = ets:match_delete(Table, {'$1', 1});
removal("select_delete", Table, Count) -> Count = ets:select_delete(Table, [{{'$1', 1}, [], [true]}]);
removal("select_delete_half", Table, Count) -> _ = ets:select_delete(Table, [{{'$1', '_'}, [{'<', '$1', Count div 2}], [true]}]).

singly([Object | Rest], Table) -> true = ets:insert(Table, Object), singly(Rest, Table);
singly([], Table) -> Table.

%% The keys in an order that is not theirs: each number once, since 7919 does not divide Count.
objects(Count) -> [{Number * 7919 rem Count, 1} || Number <- lists:seq(0, Count - 1)].
