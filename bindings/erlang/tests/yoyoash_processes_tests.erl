%% Tests of what the store and its server know of processes: owners, heirs, callers, and what stays when they end.
-module(yoyoash_processes_tests).
-include_lib("eunit/include/eunit.hrl").
-import(yoyoash_help, [over_stores/2, shown/1, eventually/1, until_stopped/0, requests/0, live/0, kept_processes/0, memory/0]).

store_test_() -> over_stores(tests(), fun(_Backend) -> [] end).

tests() ->
    [
        {"a table goes to its heir", fun heir/0},
        {"a table ends with its owner", fun owner_ends/0},
        {"a reader that ends", fun reader_ends/0},
        {"a process that comes back", fun comes_back/0},
        {"a process that does not come back", fun grace/1},
        {"callers at once", fun callers_at_once/0},
        {"replies to many callers", fun replies_in_order/0},
        {"processes that have ended leave nothing", fun leave_nothing/0},
        {"pids in objects are kept", fun pids_are_kept/0},
        {"only the heirs of the owner are asked", fun heirs_asked/0},
        {"the heir of a table that was given", fun heir_of_gift/0},
        {"an owner that ends while it is asked for", fun owner_asked_for/0}
    ].

heir() ->
    Self = self(),
    {Pid, Ref} = spawn_monitor(fun() ->
        yoyoash:new(t, [named_table, {heir, Self, data}]),
        yoyoash:insert(t, {a, Self})
    end),
    receive {'ETS-TRANSFER', t, Pid, data} -> ok after 5_000 -> error(no_transfer) end,
    receive {'DOWN', Ref, process, _, Why} -> normal = Why end,
    Self = yoyoash:info(t, owner),
    [{a, Self}] = yoyoash:lookup(t, a),
    ok.

owner_ends() ->
    {_, Ref} = spawn_monitor(fun() -> yoyoash:new(t, [named_table]) end),
    receive {'DOWN', Ref, process, _, normal} -> ok end,
    eventually(fun() -> yoyoash:whereis(t) =:= undefined end).

%% Ends a process that owned nothing: this takes one request, for any number of heirs.
reader_ends() ->
    t = yoyoash:new(t, [named_table]),
    Heirs = [spawn(fun() -> receive stop -> ok end end) || _ <- lists:seq(1, 20)],
    [true = yoyoash:setopts(t, {heir, Heir, data}) || Heir <- Heirs],
    {Reader, Ref} = spawn_monitor(fun() -> [] = yoyoash:lookup(t, a), receive stop -> ok end end),
    ok = eventually(fun() -> lists:member(Reader, live()) end),
    Before = requests(),
    Reader ! stop,
    receive {'DOWN', Ref, process, _, normal} -> ok end,
    ok = eventually(fun() -> not lists:member(Reader, live()) end),
    ?assertEqual(Before + 1, requests()),
    [Heir ! stop || Heir <- Heirs],
    ok.

%% Reports a lost connection of this process: it ends in the store, and its next call is that of a new process.
comes_back() ->
    t = yoyoash:new(t, [named_table]),
    true = yoyoash:insert(t, {self()}),
    Self = self(),
    yoyoash ! {'DOWN', yoyoash_processes:monitor(Self, kept_processes()), process, Self, noconnection},
    ok = eventually(fun() -> yoyoash:whereis(t) =:= undefined end),
    t = yoyoash:new(t, [named_table]),
    Self = yoyoash:info(t, owner),
    true = yoyoash:insert(t, {Self}),
    [{Self}] = yoyoash:lookup(t, Self),
    ok.

%% Reports a lost connection of this process to a store with a grace period: its tables stay until the period is over.
grace(Backend) ->
    {ok, _} = yoyoash:start(#{backend => Backend, name => patient, grace => 500}),
    t = yoyoash:call(patient, new, [t, [named_table]]),
    Ref = yoyoash_processes:monitor(self(), element(5, sys:get_state(patient))),
    patient ! {'DOWN', Ref, process, self(), noconnection},
    true = yoyoash:call(patient, insert, [t, {self()}]),
    ok = eventually(fun() -> yoyoash:call(patient, whereis, [t]) =:= undefined end),
    t = yoyoash:call(patient, new, [t, [named_table]]),
    yoyoash:stop(patient).

callers_at_once() ->
    t = yoyoash:new(t, [named_table, public]),
    Refs = [
        element(2, spawn_monitor(fun() -> [yoyoash:update_counter(t, N rem 7, 1, {k, 0}) || N <- lists:seq(1, 50)] end))
     || _ <- lists:seq(1, 30)
    ],
    [receive {'DOWN', Ref, process, _, Why} -> normal = Why end || Ref <- Refs],
    1500 = yoyoash:foldl(fun({_, N}, Sum) -> N + Sum end, 0, t),
    ok.

%% Each of many callers gets the replies to its own calls, also while processes come and end.
replies_in_order() ->
    t = yoyoash:new(t, [named_table, public]),
    Refs = [element(2, spawn_monitor(fun() -> [own_object({N, M}) || M <- lists:seq(1, 20)] end)) || N <- lists:seq(1, 100)],
    [receive {'DOWN', Ref, process, _, Why} -> normal = Why end || Ref <- Refs],
    2_000 = yoyoash:info(t, size),
    ok.

own_object(Key) ->
    true = yoyoash:insert_new(t, {Key, self()}),
    Self = self(),
    [{Key, Self}] = yoyoash:lookup(t, Key),
    {undef, _} = shown(fun() -> yoyoash:call_as(Self, no_call, [Key]) end),
    {badarg, _} = shown(fun() -> yoyoash:update_counter(t, Key, 1) end).

%% Lets 10,000 processes call once and end. Before, 168 bytes stayed for each.
leave_nothing() ->
    T = yoyoash:new(t, [public]),
    Other = spawn(fun() -> receive stop -> ok end end),
    ok = in_process(fun() -> one_call(T, 0, Other) end),
    Before = memory(),
    [ok = in_process(fun() -> one_call(T, N, Other) end) || N <- lists:seq(1, 10_000)],
    ok = eventually(fun() -> length(live()) =< 2 end),
    ok = eventually(fun() -> (memory() - Before) / 10_000 < 5 end),
    Other ! stop,
    ok.

one_call(T, N, Other) ->
    [] = yoyoash:lookup(T, {N, self(), Other}),
    true = yoyoash:insert(T, {1, N}).

in_process(Do) ->
    {_, Ref} = spawn_monitor(Do),
    receive {'DOWN', Ref, process, _, normal} -> ok end.

%% A pid in an object is the same pid after its process has ended, as a key and as a value.
pids_are_kept() ->
    T = yoyoash:new(t, [public]),
    {Pid, Ref} = spawn_monitor(fun() -> true = yoyoash:insert(T, {self(), self()}) end),
    receive {'DOWN', Ref, process, Pid, normal} -> ok end,
    ok = eventually(fun() -> not lists:member(Pid, live()) end),
    [{Pid, Pid}] = yoyoash:lookup(T, Pid),
    {Dead, Other} = spawn_monitor(fun() -> ok end),
    receive {'DOWN', Other, process, Dead, normal} -> ok end,
    {badarg, _} = shown(fun() -> yoyoash:call_as(Dead, new, [u, []]) end),
    true = yoyoash:insert(T, [{Dead, N} || N <- lists:seq(1, 50)]),
    ok = eventually(fun() -> not lists:member(Dead, live()) end),
    [{Dead, 50}] = yoyoash:take(T, Dead),
    ok.

%% Ends N owners, each with an heir of its own: a few requests for each. Before, 10,402 were made for 100.
heirs_asked() ->
    Pairs = [owner_with_heir() || _ <- lists:seq(1, 100)],
    Before = requests(),
    [Owner ! stop || {Owner, _} <- Pairs],
    [receive {got, Heir, Owner, 1} -> ok end || {Owner, Heir} <- Pairs],
    Made = requests() - Before,
    [Heir ! stop || {_, Heir} <- Pairs],
    ?assert(Made =< 500).

owner_with_heir() ->
    Test = self(),
    Heir = spawn(fun() -> inherits(Test) end),
    Owner = spawn(fun() ->
        T = yoyoash:new(t, [{heir, Heir, data}]),
        true = yoyoash:insert(T, {1, 2}),
        Test ! {made, T, self()},
        until_stopped()
    end),
    receive {made, _, Owner} -> {Owner, Heir} end.

inherits(Test) ->
    receive
        {'ETS-TRANSFER', T, From, data} -> Test ! {got, self(), From, yoyoash:info(T, size)}, inherits(Test);
        stop -> ok
    end.

%% A table keeps its heir when it is given, and the heir gets it when the taker ends.
heir_of_gift() ->
    Test = self(),
    [First, Second] = [spawn(fun() -> inherits(Test) end) || _ <- [1, 2]],
    Tables = [{Heir, yoyoash:new(t, [{heir, Heir, data}])} || Heir <- [First, Second]],
    Takers = [{Heir, T, spawn(fun yoyoash_help:until_stopped/0)} || {Heir, T} <- Tables],
    [true = yoyoash:give_away(T, Taker, gift) || {_, T, Taker} <- Takers],
    Before = requests(),
    [Taker ! stop || {_, _, Taker} <- Takers],
    [receive {got, Heir, Taker, 0} -> ok end || {Heir, _, Taker} <- Takers],
    ?assert(requests() - Before =< 10),
    [Heir ! stop || Heir <- [First, Second]],
    ok.

%% Asks for the owner of tables whose owners end meanwhile: a pid or `undefined', never an error.
owner_asked_for() ->
    Test = self(),
    lists:foreach(fun(_) -> asked_for(Test) end, lists:seq(1, 200)).

asked_for(Test) ->
    Owner = spawn(fun() -> new_when_gone(), Test ! {owns, self()} end),
    receive {owns, Owner} -> ok end,
    until_undefined(Owner).

new_when_gone() ->
    try yoyoash:new(t, [named_table])
    catch error:badarg -> new_when_gone()
    end.

until_undefined(Owner) ->
    case yoyoash:info(t, owner) of
        undefined -> ok;
        Owner -> until_undefined(Owner)
    end.
