%% Starts three nodes, ends one of them, and prints what is seen: three_nodes:main().
-module(three_nodes).
-export([main/0]).

-define(KEYS, lists:seq(1, 300)).
%% How long an owner keeps its tables after the connection was lost, in milliseconds.
-define(GRACE, 3_000).

-spec main() -> no_return().
main() ->
    try cluster:start(node_names(), #{program => os:getenv("YOYOASH_PROGRAM"), grace => ?GRACE}) of
        Peers ->
            try show(Peers) after [catch cluster:stop(Peer) || Peer <- Peers] end,
            halt(0)
    catch
        error:{no_store, Line} ->
            io:format(standard_error, "cluster: ~ts~n", [Line]),
            halt(1)
    end.

%% Returns names of nodes that no other run at the same time has.
node_names() -> [list_to_atom(lists:concat(["yoyoash_", Number, "_", os:getpid()])) || Number <- [one, two, three]].

show(Peers = [_, Second = {_, Two}, _]) ->
    Nodes = [Node || {_, Node} <- Peers],
    spread(Nodes),
    Shared = count_together(Nodes),
    owner_ends(Nodes),
    connection_lost(Nodes),
    node_ends(Nodes, Second),
    after_the_end(Shared, Two).

%% Shows that the objects are spread, and that only their owner may write to them.
spread(Nodes) ->
    Table = cluster:new(Nodes, counts, []),
    cluster:insert(Table, [{Key, 0} || Key <- ?KEYS]),
    say("objects on each node: ~w", [[on(Node, info, [counts, size]) || Node <- Nodes]]),
    Keys = lists:usort([Key || {Key, 0} <- cluster:tab2list(Table)]),
    say("all nodes together: ~w objects, ~w keys", [cluster:size(Table), length(Keys)]),
    Refused = by_four(fun() -> cluster:update_counter(Table, 1, 1) end),
    say("the table is protected, so others are refused: ~w", [Refused]).

%% Lets four processes count at once in a public table.
count_together(Nodes) ->
    Shared = cluster:new(Nodes, shared, [public]),
    cluster:insert(Shared, [{Key, 0} || Key <- ?KEYS]),
    by_four(fun() -> [cluster:update_counter(Shared, Key, 1) || Key <- ?KEYS] end),
    say("each key was counted by four processes: ~w", [lists:usort([N || {_, N} <- cluster:tab2list(Shared)])]),
    Shared.

owner_ends(Nodes) ->
    {Owner, Ref} = spawn_monitor(fun() -> cluster:new(Nodes, mine, []), receive stop -> ok end end),
    wait(fun() -> names(mine, Nodes) =:= [mine, mine, mine] end),
    Owner ! stop,
    receive {'DOWN', Ref, process, _, normal} -> ok end,
    wait(fun() -> names(mine, Nodes) =:= [undefined, undefined, undefined] end),
    say("a table of a process that has ended is gone on each node", []).

%% Breaks the connection between the first two nodes, and makes it again. Then the owner ends.
connection_lost(Nodes = [One, Two, _]) ->
    Owner = erpc:call(Two, fun() -> own_from_here(Nodes) end),
    true = erpc:call(One, erlang, disconnect_node, [Two]),
    say("the second node's connection to the first is lost, and its processes' tables: ~w", [names(theirs, Nodes)]),
    pong = erpc:call(One, net_adm, ping, [Two]),
    timer:sleep(?GRACE),
    say("it was there again within the grace period: ~w", [names(theirs, Nodes)]),
    Owner ! stop,
    wait(fun() -> names(theirs, Nodes) =:= [undefined, undefined, undefined] end),
    say("their owner has ended, and they are gone", []).

%% Makes a table whose owner runs on the second node, then ends that node.
node_ends(Nodes = [One, Two, Three], Second) ->
    _ = erpc:call(Two, fun() -> own_from_here(Nodes) end),
    say("a table whose owner is on the second node: ~w", [names(theirs, Nodes)]),
    cluster:stop(Second),
    wait(fun() -> names(theirs, [One, Three]) =:= [undefined, undefined] end),
    Names = names(theirs, [One, Three]),
    say("the second node has ended, and after the grace period its processes' tables on the others: ~w", [Names]).

own_from_here(Nodes) ->
    Self = self(),
    Owner = spawn(fun() -> cluster:new(Nodes, theirs, []), Self ! made, receive stop -> ok end end),
    receive made -> Owner end.

%% Looks up all keys after the second node has ended.
after_the_end(Shared, Two) ->
    Found = [{Key, found(Shared, Key, Two)} || Key <- ?KEYS],
    Gone = [Key || {Key, gone} <- Found],
    say("lookups then: ~w answered, ~w gone", [length([Key || {Key, [{_, 4}]} <- Found]), length(Gone)]),
    Lost = [Key || Key <- ?KEYS, cluster:place(Shared, Key) =:= Two],
    say("the keys of the second node are gone, and no others: ~w", [Gone =:= Lost]),
    [Kept | _] = ?KEYS -- Lost,
    say("a key of a node that runs is counted on: ~w", [cluster:update_counter(Shared, Kept, 1)]).

found(Table, Key, Two) -> try cluster:lookup(Table, Key) catch error:{gone, Two} -> gone end.

%% Runs a function in four processes at once, and returns how each ended.
by_four(Do) ->
    Run = fun() -> exit({ended, try Do(), done catch error:Reason -> Reason end}) end,
    Refs = [element(2, spawn_monitor(Run)) || _ <- lists:seq(1, 4)],
    [receive {'DOWN', Ref, process, _, {ended, How}} -> How end || Ref <- Refs].

%% Returns the name of a table on each node, or `undefined' if the table is not there.
names(Name, Nodes) -> [on(Node, info, [Name, name]) || Node <- Nodes].

on(Node, Call, Args) -> erpc:call(Node, yoyoash, call_as, [self(), Call, Args]).

wait(Is) -> case Is() of true -> ok; false -> timer:sleep(20), wait(Is) end.

say(Format, Args) -> io:format(Format ++ "~n", Args).
