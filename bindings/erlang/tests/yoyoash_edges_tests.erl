%% Tests of stores that end, and of load: programs and servers that are killed, random lives of processes, forged messages.
-module(yoyoash_edges_tests).
-include_lib("eunit/include/eunit.hrl").
-import(yoyoash_help, [over_stores/2, started/1, shown/1, contains/2, eventually/1, quietly/1, logged/1]).

store_test_() -> over_stores(tests(), fun tests/1).

tests() ->
    [
        {"a long reply", fun long_reply/0},
        {"random lives", fun random_lives/0},
        {"forged messages", fun forged/0}
    ].

tests(port) ->
    [
        {"a program that ends", fun program_ends/0},
        {"a program that ends under load", fun program_ends_under_load/0},
        {"a program that dies with many callers", fun dies_quietly/0}
    ];
tests(nif) ->
    [
        {"long calls next to short ones", fun long_beside_short/0},
        {"a server that is killed", fun server_killed/0}
    ].

%% A reply that comes in many parts, and short ones after it.
long_reply() ->
    t = yoyoash:new(t, [named_table, public]),
    Objects = [{N, binary:copy(<<N:32>>, 100)} || N <- lists:seq(1, 2_000)],
    true = yoyoash:insert(t, Objects),
    Refs = [element(2, spawn_monitor(fun() -> [look_up(N) || N <- lists:seq(1, 50)] end)) || _ <- lists:seq(1, 10)],
    ?assertEqual(Objects, lists:sort(yoyoash:tab2list(t))),
    [receive {'DOWN', Ref, process, _, Why} -> normal = Why end || Ref <- Refs],
    ok.

look_up(N) ->
    Bytes = binary:copy(<<N:32>>, 100),
    [{N, Bytes}] = yoyoash:lookup(t, N).

%% While some processes list a table, others look up and end, and the store is closed in the middle.
long_beside_short() ->
    t = yoyoash:new(t, [named_table, public]),
    true = yoyoash:insert(t, [{N, binary:copy(<<N:32>>, 100)} || N <- lists:seq(1, 2_000)]),
    Listing = [element(2, spawn_monitor(fun() -> until_refused(fun() -> yoyoash:tab2list(t) end) end)) || _ <- [1, 2, 3]],
    Looking = [element(2, spawn_monitor(fun() -> [look_up(N) || N <- lists:seq(1, 500)] end)) || _ <- lists:seq(1, 20)],
    [receive {'DOWN', Ref, process, _, Why} -> normal = Why end || Ref <- Looking],
    yoyoash:stop(),
    lists:foreach(fun ended_normally/1, Listing).

until_refused(Call) ->
    try Call() of
        _ -> until_refused(Call)
    catch
        error:badarg -> ok
    end.

%% A killed server leaves no store: calls say so, and a new store has other numbers and tables.
server_killed() ->
    Old = yoyoash:new(t, [named_table]),
    Server = erlang:whereis(yoyoash),
    Ref = monitor(process, Server),
    exit(Server, kill),
    receive {'DOWN', Ref, process, _, killed} -> ok end,
    {badarg, Shown} = shown(fun() -> yoyoash:lookup(Old, a) end),
    contains(Shown, "the store has ended"),
    {ok, _} = yoyoash:start(#{backend => nif}),
    undefined = yoyoash:whereis(t),
    yoyoash:stop().

%% The program is killed: its server ends and says how, and calls say that there is no store.
program_ends() ->
    t = yoyoash:new(t, [named_table]),
    quietly(fun() -> {status, 137} = kill_program() end),
    {badarg, Shown} = shown(fun() -> yoyoash:lookup(t, a) end),
    contains(Shown, "start_link"),
    ok.

%% Kills the program twenty times while three processes call: each time the server ends, and so do the callers.
program_ends_under_load() ->
    yoyoash:stop(),
    quietly(fun() -> [ok = killed_under_load() || _ <- lists:seq(1, 20)] end),
    ok.

killed_under_load() ->
    _ = started(port),
    t = yoyoash:new(t, [named_table, public]),
    Binary = binary:copy(<<"x">>, 20_000),
    Refs = [element(2, spawn_monitor(fun() -> insert_until_refused(0, Binary) end)) || _ <- [1, 2, 3]],
    ok = eventually(fun() -> yoyoash:info(t, size) > 10 end),
    _ = kill_program(),
    lists:foreach(fun ended_normally/1, Refs).

insert_until_refused(N, Binary) ->
    try yoyoash:insert(t, {N, Binary}) of
        true -> insert_until_refused(N + 1, Binary)
    catch
        error:badarg -> ok
    end.

ended_normally(Ref) ->
    receive {'DOWN', Ref, process, _, normal} -> ok after 5_000 -> error(caller_hangs) end.

%% Kills the program, waits until its server has ended, and returns how the server says that the program ended.
kill_program() ->
    Server = erlang:whereis(yoyoash),
    {links, Links} = process_info(Server, links),
    [Port] = [Link || Link <- Links, is_port(Link)],
    {os_pid, OsPid} = erlang:port_info(Port, os_pid),
    Ref = monitor(process, Server),
    _ = os:cmd("kill -9 " ++ integer_to_list(OsPid)),
    receive
        {'DOWN', Ref, process, _, {shutdown, {program_ended, Ended}}} -> Ended
    after 5_000 -> exit(Server, kill), error(server_hangs)
    end.

%% Random owners, heirs, gifts and ends for a second: the store goes on, and nobody waits for ever.
random_lives() ->
    Store = whereis(yoyoash),
    lives = ets:new(lives, [named_table, public]),
    End = erlang:monotonic_time(millisecond) + 1_000,
    Lives = [spawn_monitor(fun() -> begins(End) end) || _ <- lists:seq(1, 20)],
    [receive {'DOWN', Ref, process, Pid, _} -> ok after 20_000 -> error(hangs) end || {Pid, Ref} <- Lives],
    true = ets:delete(lives),
    Store = whereis(yoyoash),
    undefined = yoyoash:whereis(none),
    ok.

begins(End) ->
    true = ets:insert(lives, {rand:uniform(50), self()}),
    life(End, []).

life(End, Tables) ->
    case erlang:monotonic_time(millisecond) > End of
        true -> ok;
        false -> life(End, lived(rand:uniform(8), Tables, End))
    end.

lived(Choice, Tables, End) ->
    [Other | _] = [Pid || _ <- lists:seq(1, 50), {_, Pid} <- ets:lookup(lives, rand:uniform(50))] ++ [self()],
    try act(Choice, Tables, Other, End)
    catch error:badarg -> lists:nthtail(min(1, length(Tables)), Tables)
    end.

act(1, Tables, Other, _) -> [yoyoash:new(t, [public, {heir, Other, self()}]) | Tables];
act(2, [T | Tables], Other, _) -> true = yoyoash:give_away(T, Other, gift), Tables;
act(3, [T | _] = Tables, Other, _) -> true = yoyoash:insert(T, {self(), Other, Tables}), Tables;
act(4, [T | _] = Tables, Other, _) -> _ = yoyoash:tab2list(T), _ = yoyoash:lookup(T, Other), Tables;
act(5, [T | Tables], _, _) -> true = yoyoash:delete(T), Tables;
act(6, Tables, _, _) -> receive {'ETS-TRANSFER', T, _, _} -> _ = yoyoash:info(T, owner), [T | Tables] after 0 -> Tables end;
act(7, Tables, _, End) -> Life = spawn(fun() -> begins(End) end), timer:sleep(1), exit(Life, kill), Tables;
act(8, [T | _] = Tables, Other, _) -> true = yoyoash:setopts(T, {heir, Other, data}), Tables;
act(_, Tables, _, _) -> Tables.

%% Before, the first one ended this process in the store, and the second one ended the store.
forged() ->
    T = yoyoash:new(t, [public]),
    {ok, Port} = gen_udp:open(0),
    yoyoash ! {'DOWN', make_ref(), process, self(), killed},
    yoyoash ! {Port, {exit_status, 0}},
    yoyoash ! {'EXIT', Port, normal},
    yoyoash ! {Port, {data, <<0, 0, 0, 1, 0>>}},
    _ = sys:get_state(yoyoash),
    true = yoyoash:insert(T, {1, 2}),
    ok = gen_udp:close(Port),
    Self = yoyoash:info(T, owner),
    Self = self(),
    ok.

%% Kills the program while 500 processes wait: a line or two are logged, without the bytes of their calls.
dies_quietly() ->
    Server = whereis(yoyoash),
    T = yoyoash:new(t, [public]),
    Refs = [element(2, spawn_monitor(fun() -> insert_secret(T) end)) || _ <- lists:seq(1, 500)],
    ok = eventually(fun() -> yoyoash:info(T, size) =:= 500 end),
    Ref = monitor(process, Server),
    {links, Links} = process_info(Server, links),
    [OsPid] = [element(2, erlang:port_info(Link, os_pid)) || Link <- Links, is_port(Link)],
    Lines = logged(fun() ->
        _ = os:cmd("kill -9 " ++ integer_to_list(OsPid)),
        receive {'DOWN', Ref, process, _, Why} -> ?assertMatch({shutdown, {program_ended, _}}, Why) end,
        [receive {'DOWN', Caller, process, _, normal} -> ok after 5_000 -> error(caller_hangs) end || Caller <- Refs]
    end),
    ?assert(length(Lines) =< 2),
    contains(lists:append(Lines), "the program ended"),
    ?assertEqual(nomatch, string:find(lists:append(Lines), "secret")),
    ok.

insert_secret(T) ->
    try yoyoash:insert(T, {self(), <<"secret">>}) of
        true -> insert_secret(T)
    catch
        error:badarg -> ok
    end.
