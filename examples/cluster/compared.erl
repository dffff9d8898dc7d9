%% Compares the cluster with a table of Mnesia that has a copy on each node, on three nodes of this machine: compared:main().
%% Prints for each how long an insertion takes, and how many objects are there after one node has ended.
-module(compared).
-export([main/0, timed/2]).

-define(KEYS, lists:seq(1, 300)).

-spec main() -> no_return().
main() ->
    Names = [list_to_atom(lists:concat(["yoyoash_", Number, "_", os:getpid()])) || Number <- [one, two, three]],
    Peers = cluster:start(Names, #{program => os:getenv("YOYOASH_PROGRAM")}),
    try
        Nodes = [First | _] = [Node || {_, Node} <- Peers],
        Table = cluster:new(Nodes, counts, [public]),
        ok = copies(Nodes),
        Rows = [
            {"cluster", fun(Key) -> ok = cluster:insert(Table, {Key, 0}) end, fun(Key) -> cluster:lookup(Table, Key) end},
            {"Mnesia, dirty", fun(Key) -> ok = mnesia:dirty_write({copied, Key, 0}) end, fun read/1},
            {"Mnesia, transaction", fun(Key) -> {atomic, ok} = mnesia:transaction(fun() -> write(Key) end) end, fun read/1}
        ],
        Times = [{Name, timed_on(First, Insert), Lookup} || {Name, Insert, Lookup} <- Rows],
        ok = cluster:stop(lists:nth(2, Peers)),
        [io:format("~s: ~b microseconds, ~b of 300 objects~n", [Name, Time, found_on(First, Lookup)]) || {Name, Time, Lookup} <- Times]
    after
        [catch cluster:stop(Peer) || Peer <- Peers]
    end,
    halt(0).

write(Key) -> mnesia:write({copied, Key, 0}).

read(Key) -> mnesia:dirty_read(copied, Key).

%% Makes a table of Mnesia with a copy in the memory of each node.
copies(Nodes) ->
    [ok = erpc:call(Node, mnesia, start, []) || Node <- Nodes],
    [First | Others] = Nodes,
    {ok, _} = erpc:call(First, mnesia, change_config, [extra_db_nodes, Others]),
    {atomic, ok} = erpc:call(First, mnesia, create_table, [copied, [{ram_copies, Nodes}]]),
    ok.

timed_on(Node, Insert) -> erpc:call(Node, ?MODULE, timed, [Insert, 5]).

%% Returns the microseconds that an insertion takes in the best of several runs.
-spec timed(fun((term()) -> term()), pos_integer()) -> non_neg_integer().
timed(Insert, Runs) ->
    lists:min([element(1, timer:tc(fun() -> lists:foreach(Insert, ?KEYS) end)) div length(?KEYS) || _ <- lists:seq(1, Runs)]).

found_on(Node, Lookup) -> erpc:call(Node, fun() -> length([Key || Key <- ?KEYS, [_] <- [found(Lookup, Key)]]) end).

found(Lookup, Key) -> try Lookup(Key) catch error:{gone, _} -> [] end.
