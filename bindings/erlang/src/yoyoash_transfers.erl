%% @doc Follows tables to their next owners: by a gift, or to an heir. Delivers the messages that the store has for them.
%%
%% The store keeps an `ETS-TRANSFER' message until it is asked for. So the server knows which processes may have some.
-module(yoyoash_transfers).
-export([serve/5, made/4, heir/4, messages/3, deliver/4, done/2]).
-include("yoyoash_store.hrl").

%% @doc Does a call that names heirs or gives a table. The messages of a gift are read before any other call.
-spec serve(How, non_neg_integer(), binary(), gen_server:from(), #store{}) -> #store{} when
    How :: {heirs, [pid()]} | {gift, To :: term(), Table :: term()}.
serve({heirs, Heirs}, N, Bytes, From, S) ->
    yoyoash_replies:send(2, N, Bytes, {made, From, N, Heirs}, S);
serve({gift, To, Table}, N, Bytes, From, S = #store{processes = Processes}) ->
    case is_pid(To) andalso yoyoash_processes:number(To, Processes) of
        Taker when is_integer(Taker) ->
            Given = yoyoash_replies:send(2, N, Bytes, gift, asked_heir(Table, N, Taker, S)),
            messages(To, {gift, From}, Given);
        _NotLive ->
            yoyoash_replies:send(2, N, Bytes, {caller, From}, S)
    end.

%% Asks for the heir of a table that is given, so that it is known when the taker ends.
asked_heir(Table, Giver, Taker, S = #store{known = Known, processes = Processes}) ->
    case (is_atom(Table) orelse is_reference(Table)) andalso yoyoash_processes:has_heirs(Giver, Processes) of
        true ->
            {ok, Bytes} = yoyoash_term:write(info, [Table, heir], Known),
            yoyoash_replies:send(2, Giver, Bytes, {heir, Giver, Taker}, S);
        false ->
            S
    end.

%% @doc Remembers the heirs of a call that was made.
-spec made(Reply :: binary(), non_neg_integer(), Heirs :: [pid()], #store{}) -> #store{}.
made(<<Status, _/binary>>, N, Heirs, S = #store{processes = Processes}) when Status =:= 0; Status =:= 7 ->
    S#store{processes = yoyoash_processes:may_inherit(Heirs, N, Processes)};
made(_Refusal, _N, _Heirs, S) -> S.

%% @doc Remembers the heir of a table that is given. If the store cannot name it, it may be any heir of the giver.
-spec heir(Reply :: binary(), Giver :: non_neg_integer(), Taker :: non_neg_integer(), #store{}) -> #store{}.
heir(<<0, Bytes/binary>>, _Giver, Taker, S = #store{processes = Processes}) ->
    Heirs = [Heir || Heir <- [yoyoash_replies:read(Bytes, S)], is_pid(Heir)],
    S#store{processes = yoyoash_processes:may_inherit(Heirs, Taker, Processes)};
heir(_Refusal, Giver, Taker, S = #store{processes = Processes}) ->
    S#store{processes = yoyoash_processes:copy_heirs(Giver, Taker, Processes)}.

%% @doc Reads the messages that the store has for a process.
-spec messages(pid(), reading(), #store{}) -> #store{}.
messages(Pid, For, S = #store{processes = Processes, undelivered = Undelivered}) ->
    case yoyoash_processes:number(Pid, Processes) of
        none ->
            done(For, S#store{undelivered = maps:remove(Pid, Undelivered)});
        N ->
            yoyoash_replies:send(2, N, yoyoash_term:plain('receive', []), {messages, Pid, For}, S)
    end.

%% @doc Sends a process the messages that the store had for it.
-spec deliver(Reply :: binary(), pid(), reading(), #store{}) -> #store{}.
deliver(<<4, _/binary>>, Pid, For, S = #store{undelivered = Undelivered}) ->
    done(For, yoyoash_replies:again({messages, Pid}, S#store{undelivered = Undelivered#{Pid => true}}));
deliver(Reply, Pid, For, S = #store{undelivered = Undelivered}) ->
    Messages = case Reply of <<0, Bytes/binary>> -> yoyoash_replies:read(Bytes, S); _Refusal -> [] end,
    lists:foreach(fun(Message) -> Pid ! Message end, Messages),
    done(For, inherited(Pid, length(Messages) - gifts(For), S#store{undelivered = maps:remove(Pid, Undelivered)})).

gifts({gift, _}) -> 1;
gifts(_) -> 0.

%% Remembers that a process may have inherited tables. Their heir is still the process, also if it gives them away.
inherited(Pid, Count, S = #store{processes = Processes}) when Count > 0 ->
    case yoyoash_processes:number(Pid, Processes) of
        none -> S;
        N -> S#store{processes = yoyoash_processes:may_inherit([Pid], N, Processes)}
    end;
inherited(_Pid, _Count, S) -> S.

%% @doc Replies to the giver after a gift was delivered. Forgets a process after its heirs have got its tables.
-spec done(reading(), #store{}) -> #store{}.
done({gift, From}, S = #store{held = Body}) ->
    gen_server:reply(From, Body),
    S#store{held = none};
done({forget, Pid, N}, S = #store{known = Known, undelivered = Undelivered}) ->
    _ = map_size(Undelivered) =:= 0 andalso yoyoash_known:forget(Pid, N, Known),
    S;
done(none, S) -> S.
