%% @doc Tables with the calls of `ets', in a proved correct store.
%%
%% A program that says `yoyoash' where it said `ets' has its tables in the program `ets_script', which one process runs
%% through a port, or inside this node by a NIF. Start that process by {@link start_link/1}, by {@link child_spec/1} under
%% a supervisor, or by the application `yoyoash'. The functions have the arguments, the answers and the errors of those of
%% <a href="https://www.erlang.org/doc/apps/stdlib/ets.html">ets</a>; `docs/differences-from-ets.md' lists what differs.
%%
%% A refused call raises `badarg' or `system_limit', as in `ets', and `enomem' if the store runs out of memory.
%% The shell shows the reason.
-module(yoyoash).

-export([
    start_link/0, start_link/1, start/0, start/1, stop/0, stop/1, child_spec/1, format_error/1, call/3, call_as/3, call_as/4
]).

-export([
    delete/1, delete/2, delete_all_objects/1, delete_object/2, first/1, first_lookup/1, give_away/3, info/2, insert/2,
    insert_new/2, lookup/2, lookup_element/3, lookup_element/4, match/2, match_delete/2, match_object/2, member/2,
    new/2, next/2, next_lookup/2, safe_fixtable/2, select/2, select_count/2, select_delete/2, setopts/2, tab2list/1,
    take/2, update_counter/3, update_counter/4, update_element/3, update_element/4, whereis/1
]).

-export([
    foldl/3, foldr/3, info/1, fun2ms/1, test_ms/2, match_spec_compile/1, match_spec_run/2, is_compiled_ms/1
]).

-export_type([options/0, store/0, ended/0, table/0, access/0, type/0, option/0, heir/0, item/0, update/0, value/0]).

-type options() :: #{
    name => atom(),
    backend => port | nif,
    program => file:filename_all(),
    max_processes => non_neg_integer(),
    max_tables => non_neg_integer(),
    max_objects => non_neg_integer(),
    seed => non_neg_integer() | random,
    grace => non_neg_integer()
}.
%% A store: the name under which it is registered, or its process.
-type store() :: atom() | pid().
%% How a program ended: its exit status (128 and the number of a signal), or why its port was closed.
-type ended() :: {status, non_neg_integer()} | {closed, term()}.
-type table() :: atom() | reference().
-type access() :: public | protected | private.
-type type() :: set | bag | duplicate_bag.
-type heir() :: {heir, none} | {heir, pid(), term()}.
-type option() ::
    type()
    | access()
    | named_table
    | {keypos, pos_integer()}
    | heir()
    | compressed
    | {read_concurrency, boolean()}
    | {write_concurrency, boolean() | auto}
    | {decentralized_counters, boolean()}.
-type item() :: fixed | heir | id | keypos | name | named_table | owner | protection | size | type.
-type update() :: {pos_integer(), integer()} | {pos_integer(), integer(), integer(), integer()}.
-type value() :: {pos_integer(), term()}.

%% Does a call of the store for this process. A macro, so that an exception has the caller's function on top.
-define(CALL(Name, Args),
    case yoyoash_caller:call(?MODULE, self(), Name, Args) of
        {ok, Value} -> Value;
        {error, Reason, Cause} -> error(Reason, Args, [{error_info, #{cause => Cause, module => yoyoash_errors}}])
    end
).

%% Does a call that is given by its name. `Given' are the arguments of the function that does it.
-define(CALL_AS(Store, Pid, Name, Args, Given),
    case is_call(Store, Pid, Name, Args) andalso yoyoash_caller:call(Store, Pid, Name, Args) of
        false -> error(undef, Given);
        {ok, Value} -> Value;
        {error, Reason, Cause} -> error(Reason, Given, [{error_info, #{cause => general(Cause), module => yoyoash_errors}}])
    end
).

%%% Starting and stopping

%% @equiv start_link(#{})
-spec start_link() -> {ok, pid()} | {error, term()}.
start_link() -> start_link(#{}).

%% @doc Starts a store and links it to the caller.
%%
%% `name' is the name under which the store is registered, by default `yoyoash'. The calls of this module are made in the
%% store with that name; {@link call/3} makes them in another.
%%
%% `backend' is `port' or `nif'. Without it that is `backend' in the environment of the application, or the NIF if it was
%% loaded and no program is named, or the port.
%%
%% `program' is the path of `ets_script'. Without it that is the variable `YOYOASH_PROGRAM', or `program' in the
%% environment of the application, or the program of the repository that holds this module, or `ets_script' on `PATH'.
%%
%% `max_processes' and `max_tables' are how many the store may ever have, `max_objects' how many objects one table may
%% have. `seed' is the seed of the hash of keys, by default a random one. `grace' is how long a process on another node
%% keeps its tables after the connection was lost, in milliseconds, by default 0. All of these may be in the environment.
%%
%% The function returns when the store can be called. {@link format_error/1} explains an error.
-spec start_link(options()) -> {ok, pid()} | {error, term()}.
start_link(Options) -> yoyoash_server:start(link, Options).

%% @equiv start(#{})
-spec start() -> {ok, pid()} | {error, term()}.
start() -> start(#{}).

%% @doc Starts the store without a link, for the shell and for tests.
-spec start(options()) -> {ok, pid()} | {error, term()}.
start(Options) -> yoyoash_server:start(nolink, Options).

%% @doc Stops a store that {@link start/1} began. All tables are deleted. It exits with `noproc' if no store is running.
%%
%% A supervisor starts its store again, empty: use `application:stop(yoyoash)'.
-spec stop() -> ok.
stop() -> stop(?MODULE).

%% @doc Stops a store with another name.
-spec stop(store()) -> ok.
stop(Store) -> gen_server:stop(Store).

%% @doc Returns the specification of a store as a child of a supervisor. Its name is the child's identifier.
-spec child_spec(options()) -> supervisor:child_spec().
child_spec(Options) ->
    #{id => maps:get(name, Options, ?MODULE), start => {?MODULE, start_link, [Options]}, restart => permanent, shutdown => 5_000,
      type => worker, modules => [yoyoash_server]}.

%% @doc Explains in one line why a store was not started or has ended, and what to do.
-spec format_error(term()) -> string().
format_error({error, Reason}) -> format_error(Reason);
format_error(Reason) -> yoyoash_program:format_error(Reason).

%% @doc Does a call in a store, which may have any name: `yoyoash:call(prices, lookup, [t, apple])'.
-spec call(store(), atom(), [term()]) -> term().
call(Store, Name, Args) -> ?CALL_AS(Store, self(), Name, Args, [Store, Name, Args]).

%% @doc Does a call for another process, which may be on another node: that process owns the table that `new' makes.
%% No access right is checked for the process that calls it.
-spec call_as(pid(), atom(), [term()]) -> term().
call_as(Pid, Name, Args) -> ?CALL_AS(?MODULE, Pid, Name, Args, [Pid, Name, Args]).

%% @doc Does what {@link call_as/3} does, in a store with any name.
-spec call_as(store(), pid(), atom(), [term()]) -> term().
call_as(Store, Pid, Name, Args) -> ?CALL_AS(Store, Pid, Name, Args, [Store, Pid, Name, Args]).

is_call(Store, Pid, Name, Args) ->
    (is_atom(Store) orelse is_pid(Store)) andalso is_pid(Pid) andalso lists:member({Name, length(Args)}, calls()).

%% The number of an argument is that of the call's, not that of the function that does it.
general({argument, N, Text}) -> {general, iolist_to_binary(["argument ", integer_to_list(N), ": ", Text])};
general(Cause) -> Cause.

%% The calls that the store has.
calls() ->
    [
        {delete, 1}, {delete, 2}, {delete_all_objects, 1}, {delete_object, 2}, {first, 1}, {first_lookup, 1},
        {give_away, 3}, {info, 2}, {insert, 2}, {insert_new, 2}, {lookup, 2}, {lookup_element, 3}, {lookup_element, 4},
        {match, 2}, {match_delete, 2}, {match_object, 2}, {member, 2}, {new, 2}, {next, 2}, {next_lookup, 2},
        {safe_fixtable, 2}, {select, 2}, {select_count, 2}, {select_delete, 2}, {setopts, 2}, {tab2list, 1}, {take, 2},
        {update_counter, 3}, {update_counter, 4}, {update_element, 3}, {update_element, 4}, {whereis, 1}
    ].

%%% The calls of the store

%% @doc Deletes a table.
-spec delete(table()) -> true.
delete(Table) -> ?CALL(delete, [Table]).

%% @doc Deletes all objects with a key.
-spec delete(table(), Key :: term()) -> true.
delete(Table, Key) -> ?CALL(delete, [Table, Key]).

%% @doc Deletes all objects of a table.
-spec delete_all_objects(table()) -> true.
delete_all_objects(Table) -> ?CALL(delete_all_objects, [Table]).

%% @doc Deletes every instance of an object.
-spec delete_object(table(), Object :: tuple()) -> true.
delete_object(Table, Object) -> ?CALL(delete_object, [Table, Object]).

%% @doc Returns the first key of a table.
-spec first(table()) -> Key :: term() | '$end_of_table'.
first(Table) -> ?CALL(first, [Table]).

%% @doc Returns the first key of a table and its objects.
-spec first_lookup(table()) -> {Key :: term(), [tuple()]} | '$end_of_table'.
first_lookup(Table) -> ?CALL(first_lookup, [Table]).

%% @doc Gives a table to another process, which receives an `ETS-TRANSFER' message with the gift.
-spec give_away(table(), pid(), Gift :: term()) -> true.
give_away(Table, Pid, Gift) -> ?CALL(give_away, [Table, Pid, Gift]).

%% @doc Returns one item about a table.
-spec info(table(), item()) -> term() | undefined.
info(Table, Item) -> ?CALL(info, [Table, Item]).

%% @doc Inserts an object, or all objects of a list or none of them.
-spec insert(table(), tuple() | [tuple()]) -> true.
insert(Table, Objects) -> ?CALL(insert, [Table, Objects]).

%% @doc Inserts like {@link insert/2}, but only if no key is in the table.
-spec insert_new(table(), tuple() | [tuple()]) -> boolean().
insert_new(Table, Objects) -> ?CALL(insert_new, [Table, Objects]).

%% @doc Returns the objects with a key, the oldest first.
-spec lookup(table(), Key :: term()) -> [tuple()].
lookup(Table, Key) -> ?CALL(lookup, [Table, Key]).

%% @doc Returns one element of the object with a key, or in a bag of all objects with it.
-spec lookup_element(table(), Key :: term(), pos_integer()) -> term() | [term()].
lookup_element(Table, Key, Pos) -> ?CALL(lookup_element, [Table, Key, Pos]).

%% @doc Returns what {@link lookup_element/3} does, or a default if there is no such key.
-spec lookup_element(table(), Key :: term(), pos_integer(), Default :: term()) -> term() | [term()].
lookup_element(Table, Key, Pos, Default) -> ?CALL(lookup_element, [Table, Key, Pos, Default]).

%% @doc Returns the bindings of a pattern for each object that matches.
-spec match(table(), ets:match_pattern()) -> [[term()]].
match(Table, Pattern) -> ?CALL(match, [Table, Pattern]).

%% @doc Deletes the objects that match a pattern.
-spec match_delete(table(), ets:match_pattern()) -> true.
match_delete(Table, Pattern) -> ?CALL(match_delete, [Table, Pattern]).

%% @doc Returns the objects that match a pattern.
-spec match_object(table(), ets:match_pattern()) -> [tuple()].
match_object(Table, Pattern) -> ?CALL(match_object, [Table, Pattern]).

%% @doc Says whether a table has objects with a key.
-spec member(table(), Key :: term()) -> boolean().
member(Table, Key) -> ?CALL(member, [Table, Key]).

%% @doc Makes a table, which the caller owns. A table without a name is known by a reference.
-spec new(atom(), [option()]) -> table().
new(Name, Options) -> ?CALL(new, [Name, Options]).

%% @doc Returns the next key.
-spec next(table(), Key :: term()) -> term() | '$end_of_table'.
next(Table, Key) -> ?CALL(next, [Table, Key]).

%% @doc Returns the next key and its objects.
-spec next_lookup(table(), Key :: term()) -> {term(), [tuple()]} | '$end_of_table'.
next_lookup(Table, Key) -> ?CALL(next_lookup, [Table, Key]).

%% @doc Fixes a table for a traversal, or releases it.
-spec safe_fixtable(table(), boolean()) -> true.
safe_fixtable(Table, Fix) -> ?CALL(safe_fixtable, [Table, Fix]).

%% @doc Returns the results of a match specification.
-spec select(table(), ets:match_spec()) -> [term()].
select(Table, Spec) -> ?CALL(select, [Table, Spec]).

%% @doc Counts the objects for which a match specification gives `true'.
-spec select_count(table(), ets:match_spec()) -> non_neg_integer().
select_count(Table, Spec) -> ?CALL(select_count, [Table, Spec]).

%% @doc Deletes and counts the objects for which a match specification gives `true'.
-spec select_delete(table(), ets:match_spec()) -> non_neg_integer().
select_delete(Table, Spec) -> ?CALL(select_delete, [Table, Spec]).

%% @doc Sets the heir of a table.
-spec setopts(table(), heir() | [heir()]) -> true.
setopts(Table, Options) -> ?CALL(setopts, [Table, Options]).

%% @doc Returns all objects.
-spec tab2list(table()) -> [tuple()].
tab2list(Table) -> ?CALL(tab2list, [Table]).

%% @doc Deletes and returns the objects with a key.
-spec take(table(), Key :: term()) -> [tuple()].
take(Table, Key) -> ?CALL(take, [Table, Key]).

%% @doc Adds to counters of the object with a key.
-spec update_counter(table(), Key :: term(), integer() | update() | [update()]) -> integer() | [integer()].
update_counter(Table, Key, Updates) -> ?CALL(update_counter, [Table, Key, Updates]).

%% @doc Adds to counters of the object with a key, or of a default if there is none.
-spec update_counter(table(), Key :: term(), integer() | update() | [update()], Default :: tuple()) ->
    integer() | [integer()].
update_counter(Table, Key, Updates, Default) -> ?CALL(update_counter, [Table, Key, Updates, Default]).

%% @doc Writes elements of the object with a key.
-spec update_element(table(), Key :: term(), value() | [value()]) -> boolean().
update_element(Table, Key, Values) -> ?CALL(update_element, [Table, Key, Values]).

%% @doc Writes elements of the object with a key, or of a default if there is none.
-spec update_element(table(), Key :: term(), value() | [value()], Default :: tuple()) -> true.
update_element(Table, Key, Values, Default) -> ?CALL(update_element, [Table, Key, Values, Default]).

%% @doc Returns the reference of the table with a name.
-spec whereis(atom()) -> reference() | undefined.
whereis(Name) -> ?CALL(whereis, [Name]).

%%% Functions of `ets' that need no call of their own

%% @doc Folds over all objects, which are read at once.
-spec foldl(fun((tuple(), Acc) -> Acc), Acc, table()) -> Acc.
foldl(Fun, Acc, Table) -> lists:foldl(Fun, Acc, tab2list(Table)).

%% @doc Folds over all objects from the other end.
-spec foldr(fun((tuple(), Acc) -> Acc), Acc, table()) -> Acc.
foldr(Fun, Acc, Table) -> lists:foldr(Fun, Acc, tab2list(Table)).

%% @doc Returns the items that the store has about a table.
-spec info(table()) -> [{item() | node, term()}] | undefined.
info(Table) ->
    Items = [{Item, info(Table, Item)} || Item <- items()],
    case lists:last(Items) of
        {owner, undefined} -> undefined;
        {owner, _} -> [{node, node()} | Items]
    end.

%% Returns the items of a table. The owner comes last: if the table has one, it existed during the calls before.
items() -> [size, id, heir, name, named_table, type, keypos, protection, owner].

%% @doc Calls `ets:fun2ms/1', which works in the shell. In a module write `ets:fun2ms' and include `ms_transform.hrl'.
-spec fun2ms(fun()) -> ets:match_spec().
fun2ms(Fun) -> ets:fun2ms(Fun).

%% @doc Calls `ets:test_ms/2'.
-spec test_ms(tuple(), ets:match_spec()) -> {ok, term()} | {error, [{warning | error, string()}]}.
test_ms(Tuple, Spec) -> ets:test_ms(Tuple, Spec).

%% @doc Calls `ets:match_spec_compile/1'.
-spec match_spec_compile(ets:match_spec()) -> ets:comp_match_spec().
match_spec_compile(Spec) -> ets:match_spec_compile(Spec).

%% @doc Calls `ets:match_spec_run/2'.
-spec match_spec_run([term()], ets:comp_match_spec()) -> [term()].
match_spec_run(List, Compiled) -> ets:match_spec_run(List, Compiled).

%% @doc Calls `ets:is_compiled_ms/1'.
-spec is_compiled_ms(term()) -> boolean().
is_compiled_ms(Term) -> ets:is_compiled_ms(Term).
