%% Erlang/OTP's own ets asked by calls, in one run of erl: ets_calls:main(["times", Count]), ["times-pinned", Count]
%% (for an erl with one scheduler), ["walks", Count], ["searches", Count], ["memory", Count], or ["clients", Clients, Calls].
%%
%% Prints lines of WHO OPERATION FIGURE, in nanoseconds a call. Keys, objects and their order are made before the clock
%% runs, and stand as persistent terms, which no collection of garbage copies.
-module(ets_calls).
-export([main/1]).

-define(WORD, 16#FFFFFFFFFFFFFFFF).
-define(PHASES, [insert, hit, miss, counter, write, delete]).
-define(KEYS, 10000).

main(["times", Count]) ->
    times("ets", list_to_integer(Count)),
    halt(0);
main(["times-pinned", Count]) ->
    times("ets,pinned", list_to_integer(Count)),
    halt(0);
main(["walks", Count]) ->
    walks(list_to_integer(Count)),
    halt(0);
main(["searches", Count]) ->
    searches(list_to_integer(Count)),
    halt(0);
main(["memory", Count]) ->
    memory(list_to_integer(Count)),
    halt(0);
main(["clients", Clients, Calls]) ->
    Concurrent = [public, {read_concurrency, true}, {write_concurrency, true}],
    [clients(Who, Load, Options, list_to_integer(Clients), list_to_integer(Calls))
     || {Who, Options} <- [{"ets", [public]}, {"ets,concurrent", Concurrent}], Load <- [mixture, reads]],
    halt(0).

%% ---- one process, phase by phase ----

times(Who, Count) ->
    [persistent_term:put(Phase, given(Phase, Count)) || Phase <- ?PHASES],
    Lives = [life() || _ <- lists:seq(1, max(1, 300000 div Count))],
    [show(Who, Phase, lists:min([maps:get(Phase, Life) || Life <- Lives]) / Count) || Phase <- ?PHASES].

given(insert, Count) -> [{K, 1} || K <- shuffled(Count, 1)];
given(hit, Count) -> shuffled(Count, 2);
given(miss, Count) -> [K + Count || K <- shuffled(Count, 3)];
given(counter, Count) -> shuffled(Count, 4);
given(write, Count) -> shuffled(Count, 6);
given(delete, Count) -> shuffled(Count, 5).

%% The nanoseconds of each phase of a new table.
life() ->
    Table = ets:new(t, [public]),
    Life = maps:from_list([{Phase, timed(Phase, Table, persistent_term:get(Phase))} || Phase <- ?PHASES]),
    ets:delete(Table),
    Life.

timed(Phase, Table, Given) ->
    Start = erlang:monotonic_time(nanosecond),
    ok = run(Phase, Given, Table),
    erlang:monotonic_time(nanosecond) - Start.

run(insert, Given, Table) -> insert(Given, Table);
run(hit, Given, Table) -> hit(Given, Table);
run(miss, Given, Table) -> miss(Given, Table);
run(counter, Given, Table) -> counter(Given, Table);
run(write, Given, Table) -> write(Given, Table);
run(delete, Given, Table) -> delete(Given, Table).

insert([Object | Rest], Table) -> true = ets:insert(Table, Object), insert(Rest, Table);
insert([], _) -> ok.

hit([Key | Rest], Table) -> [{_, _}] = ets:lookup(Table, Key), hit(Rest, Table);
hit([], _) -> ok.

miss([Key | Rest], Table) -> false = ets:member(Table, Key), miss(Rest, Table);
miss([], _) -> ok.

counter([Key | Rest], Table) -> 2 = ets:update_counter(Table, Key, 1), counter(Rest, Table);
counter([], _) -> ok.

write([Key | Rest], Table) -> true = ets:update_element(Table, Key, {2, 7}), write(Rest, Table);
write([], _) -> ok.

delete([Key | Rest], Table) -> true = ets:delete(Table, Key), delete(Rest, Table);
delete([], _) -> ok.

%% ---- a walk over a whole table ----

walks(Count) ->
    Table = ets:new(t, [public]),
    [ets:insert(Table, {Key, 1}) || Key <- shuffled(Count, 1)],
    show("ets", "next+lookup", lists:min([walked(Table, Count) || _ <- lists:seq(1, 3)]) / Count).

%% The nanoseconds of one traversal, after the first key.
walked(Table, Count) ->
    Key = ets:first(Table),
    Start = erlang:monotonic_time(nanosecond),
    Count = walk(Table, Key, 1),
    erlang:monotonic_time(nanosecond) - Start.

walk(Table, Before, Told) ->
    case ets:next(Table, Before) of
        '$end_of_table' -> Told;
        Key -> [{_, _}] = ets:lookup(Table, Key), walk(Table, Key, Told + 1)
    end.

%% ---- processes that share a table ----

%% Nine lookups, then an insertion, and so on, or lookups alone, in an order of each client's own.
clients(Who, Load, Options, Clients, Calls) ->
    Table = ets:new(t, Options),
    [ets:insert(Table, {Key, 1}) || Key <- lists:seq(0, ?KEYS - 1)],
    [persistent_term:put(Client, calls(Load, Calls, Client)) || Client <- lists:seq(1, Clients)],
    Here = self(),
    Pids = [spawn_link(fun() -> client(Here, Table, Client) end) || Client <- lists:seq(1, Clients)],
    [receive {ready, Pid} -> ok end || Pid <- Pids],
    Start = erlang:monotonic_time(nanosecond),
    [Pid ! go || Pid <- Pids],
    Found = lists:sum([receive {found, Pid, Count} -> Count end || Pid <- Pids]),
    Spent = erlang:monotonic_time(nanosecond) - Start,
    Found = Clients * lookups(Load, Calls),
    ets:delete(Table),
    show(Who, Load, Spent / (Clients * Calls)).

lookups(mixture, Calls) -> Calls - Calls div 10;
lookups(reads, Calls) -> Calls.

calls(mixture, Calls, Client) ->
    Keys = lists:zip(lists:seq(0, Calls - 1), shuffled(Calls, Client)),
    [case At rem 10 of 9 -> {K rem ?KEYS, 1}; _ -> K rem ?KEYS end || {At, K} <- Keys];
calls(reads, Calls, Client) -> [K rem ?KEYS || K <- shuffled(Calls, Client)].

client(Parent, Table, Client) ->
    Given = persistent_term:get(Client),
    Parent ! {ready, self()},
    receive go -> ok end,
    Parent ! {found, self(), ask(Given, Table, 0)}.

%% How many lookups found an object.
ask([{_, _} = Object | Rest], Table, Found) -> true = ets:insert(Table, Object), ask(Rest, Table, Found);
ask([Key | Rest], Table, Found) -> [{_, _}] = ets:lookup(Table, Key), ask(Rest, Table, Found + 1);
ask([], _, Found) -> Found.

%% ---- the order of keys, as the store and all peers have it ----

shuffled(Count, Seed) ->
    Mask = power_of_two(Count, 1) - 1,
    Odd = ((Seed * 16#D6E8FEB86659FD92) band ?WORD) bor 1,
    By = [Odd band Mask, (16#85EBCA6B bxor ((Seed * 16#2C1B3C6C) band ?WORD)) band Mask, (Odd bxor 16#9E3779B8) band Mask,
          (16#C2B2AE35 bxor ((Seed * 16#165667B0) band ?WORD)) band Mask],
    [K || I <- lists:seq(0, Mask), K <- [jump(I, By, Mask)], K < Count].

jump(I, [By, More, Again, Last], Mask) ->
    A = (I * By) band Mask,
    B = ((A bxor (A bsr 9)) * More) band Mask,
    C = ((B bxor (B bsr 7)) * Again) band Mask,
    D = ((C bxor (C bsr 11)) * Last) band Mask,
    D bxor (D bsr 8).

power_of_two(Count, Power) when Power >= Count -> Power;
power_of_two(Count, Power) -> power_of_two(Count, Power * 2).

show(Who, Operation, Figure) -> io:format("~s ~s ~.1f~n", [Who, Operation, float(Figure)]).

%% ---- searches of a whole table, and memory ----

%% The nanoseconds an object of each search, in a table that was filled one by one.
searches(Count) ->
    Table = ets:new(t, [public]),
    [ets:insert(Table, {K, 3 * K}) || K <- shuffled(Count, 1)],
    Value = Count div 2 * 3,
    Half = fun(Result) -> [{{'_', '$1'}, [{'>', '$1', Value}], [Result]}] end,
    [search(Name, Count, Search) || {Name, Search} <- [
        {"select_one", fun() -> ets:select(Table, [{{'$1', '$2'}, [{'=:=', '$2', Value}], ['$1']}]) end},
        {"match", fun() -> ets:match(Table, {'$1', Value}) end},
        {"select_count", fun() -> ets:select_count(Table, Half(true)) end},
        {"select_all", fun() -> ets:select(Table, [{{'_', '$1'}, [], ['$1']}]) end},
        {"tab2list", fun() -> ets:tab2list(Table) end},
        {"select_delete", fun() -> ets:select_delete(Table, Half(true)) end}
    ]].

search(Name, Count, Search) ->
    Start = erlang:monotonic_time(nanosecond),
    _ = Search(),
    show("ets", Name, (erlang:monotonic_time(nanosecond) - Start) / Count).

%% The bytes an object that a table of each shape takes, as ets counts them.
memory(Count) ->
    Ten = list_to_binary(lists:seq(0, 9)),
    bytes("pair", set, [{K, 3 * K} || K <- shuffled(Count, 1)]),
    bytes("atom", set, [{list_to_atom("k" ++ integer_to_list(K)), Ten} || K <- shuffled(Count, 1)]),
    bytes("nested", set, [{K, {K, 3 * K, 7}} || K <- shuffled(Count, 1)]),
    bytes("bag", bag, [{K div 100, K} || K <- shuffled(Count, 1)]).

bytes(Name, Kind, Objects) ->
    Table = ets:new(t, [Kind]),
    Before = ets:info(Table, memory),
    [ets:insert(Table, Object) || Object <- Objects],
    show("ets", Name, (ets:info(Table, memory) - Before) * erlang:system_info(wordsize) / length(Objects)),
    ets:delete(Table).
