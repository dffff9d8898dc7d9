%% Tests that no scheduler of a node with the NIF waits for a long call.
-module(yoyoash_schedulers_tests).
-include_lib("eunit/include/eunit.hrl").
-import(yoyoash_help, [over_stores/2, in_peer/3]).
-export([longest_wait/2]).

store_test_() -> over_stores([], fun tests/1).

tests(port) -> [];
tests(nif) ->
    [
        {"a scheduler never waits for a long call", fun schedulers/0},
        {"long calls on one store next to another", fun dirty_schedulers/0}
    ].

%% Runs a node with one scheduler, in which a process counts how long it waits.
schedulers() ->
    [
        begin
            {Took, Waited} = in_peer(["+S", "1:1"], fun ?MODULE:longest_wait/2, [Case, 40_000]),
            ?assert({Case, Took, Waited} =:= {Case, Took, min(Waited, max(100_000, Took div 3))})
        end
     || Case <- [release, killed, killed_in_call]
    ],
    ok.

%% Returns how long something took, and how long another process waited for the scheduler, in microseconds.
-spec longest_wait(atom(), pos_integer()) -> {non_neg_integer(), non_neg_integer()}.
longest_wait(Case, Objects) ->
    {ok, Store} = yoyoash:start(#{backend => nif}),
    T = yoyoash:new(t, [public]),
    [yoyoash:insert(T, [{N, N} || N <- lists:seq(From, From + 499)]) || From <- lists:seq(0, Objects - 1, 500)],
    Do = prepared(Case, Store, T, Objects),
    Test = self(),
    Waits = spawn(fun() -> waits(erlang:monotonic_time(microsecond), 0, Test) end),
    timer:sleep(5),
    {Took, _} = timer:tc(Do),
    Waits ! stop,
    receive {waited, Waited} -> {Took, Waited} end.

waits(Last, Longest, Test) ->
    receive
        stop -> Test ! {waited, Longest}
    after 0 ->
        Now = erlang:monotonic_time(microsecond),
        erlang:yield(),
        waits(Now, max(Longest, Now - Last), Test)
    end.

prepared(release, _Store, T, Objects) ->
    true = yoyoash:safe_fixtable(T, true),
    [true = yoyoash:delete(T, N) || N <- lists:seq(0, Objects - 1)],
    fun() -> yoyoash:safe_fixtable(T, false) end;
prepared(killed, Store, _T, _Objects) ->
    fun() -> exit(Store, kill), until_ended(Store), timer:sleep(200) end;
prepared(killed_in_call, Store, T, _Objects) ->
    Spec = long_spec(),
    Selects = spawn_monitor(fun() -> try yoyoash:select(T, Spec) catch error:badarg -> ok end end),
    timer:sleep(20),
    {Pid, Ref} = Selects,
    fun() -> exit(Store, kill), receive {'DOWN', Ref, process, Pid, _} -> ok end, timer:sleep(100) end.

until_ended(Pid) ->
    Ref = monitor(process, Pid),
    receive {'DOWN', Ref, process, Pid, _} -> ok end.

%% A specification that finds nothing, and needs some microseconds for each object.
long_spec() ->
    [{{'$1', '$2'}, [{'andalso', {'>', '$1', N}, {'<', '$2', -N - 1}}], ['$_']} || N <- lists:seq(1, 60)].

%% As many processes as there are dirty schedulers search one store, and another store answers a long call meanwhile.
dirty_schedulers() ->
    {ok, _} = yoyoash:start(#{backend => nif, name => other}),
    u = yoyoash:call(other, new, [u, [named_table, public]]),
    T = yoyoash:new(t, [public]),
    [yoyoash:insert(T, [{N, N} || N <- lists:seq(From, From + 499)]) || From <- lists:seq(0, 9_999, 500)],
    Count = 2 * erlang:system_info(dirty_cpu_schedulers_online),
    {Alone, []} = timer:tc(fun() -> yoyoash:select(T, long_spec()) end),
    Searches = [spawn_monitor(fun() -> [] = yoyoash:select(T, long_spec()) end) || _ <- lists:seq(1, Count)],
    timer:sleep(20),
    {Beside, []} = timer:tc(fun() -> yoyoash:call(other, tab2list, [u]) end),
    [receive {'DOWN', Ref, process, Pid, Why} -> normal = Why end || {Pid, Ref} <- Searches],
    ok = yoyoash:stop(other),
    ?assert({Alone, Beside} =:= {Alone, min(Beside, Alone div 2)}).
