%% Spreads a table over Erlang nodes, each with `yoyoash' and a store of its own: a demo.
%%
%% It LOSES DATA. The objects of a node are in its memory alone, so they are lost when the node ends. The process that makes
%% the table owns its part on each node. So the parts end with that process, with its node, or when the connection to it is
%% lost for longer than the grace period. Use Mnesia for copies, and Ra for consensus. docs/erlang-cluster.md says what holds.
%%
%% The place of a key is given by erlang:phash2.
-module(cluster).
-export([start/2, stop/1, new/3, place/2, insert/2, lookup/2, update_counter/3, delete/2, size/1, tab2list/1]).
-export_type([table/0]).

-type table() :: #{name := atom(), keypos := pos_integer(), nodes := tuple()}.

%% How long an owner keeps its tables on the other nodes after the connection was lost, in milliseconds.
-define(GRACE, 5_000).

%% Starts nodes on this machine, each with a store that has these options. When one node ends, `global' must not part the
%% others from each other.
-spec start([atom()], yoyoash:options()) -> [{pid(), node()}].
start(Names, Options) -> [start_node(Name, maps:merge(#{grace => ?GRACE}, Options)) || Name <- Names].

start_node(Name, Options) ->
    Args = ["-kernel", "prevent_overlapping_partitions", "false", "-pa", filename:dirname(code:which(?MODULE))],
    {ok, Peer, Node} = peer:start(#{name => Name, args => Args, peer_down => continue, wait_boot => 120_000}),
    case erpc:call(Node, yoyoash, start, [Options]) of
        {ok, _} -> {Peer, Node};
        Error -> error({no_store, yoyoash:format_error(Error)})
    end.

%% Stops a node.
-spec stop({pid(), node()}) -> ok.
stop({Peer, _Node}) -> peer:stop(Peer).

%% Makes the table on all nodes.
-spec new([node()], atom(), [yoyoash:option()]) -> table().
new(Nodes, Name, Options) ->
    [Name = call(Node, new, [Name, [named_table | Options]]) || Node <- Nodes],
    #{name => Name, keypos => keypos(Options), nodes => list_to_tuple(Nodes)}.

%% Returns the position of the key: the last option counts, as in the store.
keypos(Options) -> lists:last([1 | proplists:get_all_values(keypos, Options)]).

%% Returns the node that has a key.
-spec place(table(), term()) -> node().
place(#{nodes := Nodes}, Key) -> element(erlang:phash2(Key, tuple_size(Nodes)) + 1, Nodes).

%% Inserts objects. On each node all of its objects are inserted, or none.
-spec insert(table(), tuple() | [tuple()]) -> ok.
insert(Table, Object) when is_tuple(Object) -> insert(Table, [Object]);
insert(Table = #{name := Name}, Objects) ->
    maps:foreach(fun(Node, Part) -> true = call(Node, insert, [Name, Part]) end, parts(Table, Objects)).

%% Groups objects by the node of their key, in their order.
parts(Table = #{keypos := KeyPos}, Objects) ->
    Placed = [{place(Table, element(KeyPos, Object)), Object} || Object <- Objects],
    maps:from_list([{Node, [Object || {At, Object} <- Placed, At =:= Node]} || {Node, _} <- Placed]).

%% Calls on the node of the key.
-spec lookup(table(), term()) -> [tuple()].
lookup(Table, Key) -> at_key(Table, Key, lookup, [Key]).

-spec update_counter(table(), term(), integer()) -> integer().
update_counter(Table, Key, Increment) -> at_key(Table, Key, update_counter, [Key, Increment]).

-spec delete(table(), term()) -> true.
delete(Table, Key) -> at_key(Table, Key, delete, [Key]).

at_key(Table = #{name := Name}, Key, Call, Args) -> call(place(Table, Key), Call, [Name | Args]).

%% Adds up what each node answers, one node after another: the answers are of different moments.
-spec size(table()) -> non_neg_integer().
size(Table) -> lists:sum(at_all(Table, info, [size])).

-spec tab2list(table()) -> [tuple()].
tab2list(Table) -> lists:append(at_all(Table, tab2list, [])).

at_all(#{name := Name, nodes := Nodes}, Call, Args) ->
    [call(Node, Call, [Name | Args]) || Node <- tuple_to_list(Nodes)].

%% Calls on a node, for this process. A refused call is an error here. A node that cannot be reached is the error
%% {gone, Node}: nobody knows then whether the call was done.
call(Node, Call, Args) ->
    try
        erpc:call(Node, yoyoash, call_as, [self(), Call, Args])
    catch
        error:{exception, Reason, _} -> error(Reason);
        error:{erpc, noconnection} -> error({gone, Node})
    end.
