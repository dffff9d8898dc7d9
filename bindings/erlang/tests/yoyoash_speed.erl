%% Measures calls through the port, and through the NIF if it is built: yoyoash_speed:main() prints calls a second, for
%% docs/erlang.md.
-module(yoyoash_speed).
-export([main/0]).

-define(CALLS, 20_000).

-spec main() -> no_return().
main() ->
    lists:foreach(fun measure/1, [port | [nif || yoyoash_nif:is_loaded()]]),
    halt(0).

measure(Backend) ->
    {ok, _} = yoyoash:start(#{backend => Backend}),
    t = yoyoash:new(t, [named_table, public]),
    measure(Backend, "insert, one caller", 1, fun(N) -> yoyoash:insert(t, {N, N}) end),
    [measure(Backend, What, Callers, fun(N) -> [{N, N}] = yoyoash:lookup(t, N) end)
     || {What, Callers} <- [{"lookup, one caller", 1}, {"lookup, 8 callers", 8}, {"lookup, 100 callers", 100}]],
    measure(Backend, "lists of 100 objects, one caller, per object", 1, ?CALLS div 100, fun insert_100/1),
    yoyoash:stop().

insert_100(N) -> yoyoash:insert(t, [{{N, M}, M} || M <- lists:seq(1, 100)]).

measure(Backend, What, Callers, Call) -> measure(Backend, What, Callers, ?CALLS, Call).

%% Shares the calls among the callers, and takes the best of five runs.
measure(Backend, What, Callers, Calls, Call) ->
    Best = lists:min([run(Callers, Calls div Callers, Call) || _ <- lists:seq(1, 5)]),
    io:format("~s, ~s: ~b a second~n", [Backend, What, ?CALLS * 1_000_000 div Best]).

run(Callers, Calls, Call) ->
    {Time, _} = timer:tc(fun() ->
        Refs = [element(2, spawn_monitor(fun() -> repeat(Calls, Call) end)) || _ <- lists:seq(1, Callers)],
        [receive {'DOWN', Ref, process, _, normal} -> ok end || Ref <- Refs]
    end),
    Time.

repeat(0, _) -> ok;
repeat(N, Call) -> Call(N), repeat(N - 1, Call).
