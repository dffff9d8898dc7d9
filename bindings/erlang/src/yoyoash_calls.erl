%% @doc Makes random calls for {@link yoyoash_diff}, by types of the library PropEr. No other module needs it.
%%
%% Tables are `s' (a set), `b' (a bag) and `d' (a duplicate bag), processes `main', `p' and `q'. Keys are few, so that calls
%% meet. No call reaches a difference that docs/differences-from-ets.md states.
-module(yoyoash_calls).
-export([pick/2, calls/0, call/0]).
-ignore_xref([
    {proper_gen, pick, 3}, {proper_types, bind, 3}, {proper_types, frequency, 1}, {proper_types, integer, 2},
    {proper_types, list, 1}, {proper_types, oneof, 1}, {proper_types, vector, 2}
]).
-import(proper_types, [bind/3, frequency/1, integer/2, list/1, oneof/1, vector/2]).

%% @doc Returns `N' random calls, of which the first ones make the tables.
-spec pick(Seed :: non_neg_integer(), N :: non_neg_integer()) -> [yoyoash_diff:call()].
pick(Seed, N) ->
    {ok, Calls} = proper_gen:pick(vector(N, call()), 10, {Seed, Seed + 1, Seed + 2}),
    lists:sublist(tables() ++ Calls, N).

%% @doc Is the type of lists of calls that make the tables first: `?FORALL(Calls, yoyoash_calls:calls(), ..)'.
-spec calls() -> term().
calls() -> bind(list(call()), fun(Calls) -> tables() ++ Calls end, false).

tables() -> [new(Name, []) || Name <- [s, b, d]].

new(Name, Options) -> {new, [Name, [type(Name), public, named_table | Options]]}.

type(s) -> set;
type(b) -> bag;
type(d) -> duplicate_bag.

%% @doc Is the type of single calls.
-spec call() -> term().
call() ->
    frequency([
        {80, by_process(of_any())}, {40, by_process(of_set())}, {12, by_process(of_owners())}, {10, by_process(tables())},
        {1, {exit, oneof([p, q])}}
    ]).

by_process(Calls) ->
    bind({process(), oneof(Calls)}, fun({Process, {Name, Args}}) -> {Process, Name, Args} end, false).

%% Calls on a table of any type.
of_any() ->
    [
        {insert, [table(), object()]}, {insert, [table(), object()]}, {insert_new, [table(), object()]},
        {lookup, [table(), key()]}, {member, [table(), key()]}, {lookup_element, [table(), key(), integer(1, 3)]},
        {delete, [table(), key()]}, {delete_object, [table(), object()]}, {take, [oneof([b, d]), key()]},
        {tab2list, [table()]}, {first, [table()]}, {info, [table(), item()]}, {whereis, [table()]},
        {match, [table(), pattern()]}, {match_object, [table(), pattern()]}, {match_delete, [table(), pattern()]},
        {select, [table(), specification(oneof([['$_'], ['$1'], [{{'$2', '$1'}}]]))]},
        {select_count, [table(), specification([true])]}, {select_delete, [table(), specification([true])]}
    ].

%% Calls that need a set, or that differ on a bag: lists of objects, and fixed tables.
of_set() ->
    [
        {insert, [s, list(object())]}, {insert_new, [s, list(object())]}, {take, [s, key()]},
        {update_counter, [s, key(), oneof([integer(-3, 3), {2, integer(-3, 3), 5, 0}])]},
        {update_counter, [s, key(), {2, integer(-3, 3)}, {x, 0}]},
        {update_element, [s, key(), {integer(2, 4), value()}]},
        {safe_fixtable, [s, oneof([true, false])]}
    ].

%% Calls about tables and their owners.
of_owners() ->
    [
        new_with_heir(), {new, [u, []]}, {insert, [{table, u}, object()]},
        {delete, [oneof([table(), {table, u}, {table, u}])]}, {delete_all_objects, [table()]},
        {give_away, [oneof([table(), {table, u}]), some_process(), value()]},
        {setopts, [table(), oneof([{heir, none}, {heir, some_process(), value()}])]},
        {info, [table(), owner]}
    ].

new_with_heir() ->
    Options = [[bag, named_table, Access, {heir, some_process(), value()}] || Access <- [public, protected, private]],
    {new, [b, oneof(Options)]}.

process() -> oneof([main, main, p, q]).
some_process() -> {process, process()}.
table() -> oneof([s, b, d]).
key() -> oneof([1, 2, 3, a, <<"k">>, {1, a}]).
value() -> oneof([integer(0, 5), a, [], "text", {some_process()}]).
object() -> oneof([{key()}, {key(), integer(0, 5)}, {key(), integer(0, 5)}, {key(), value(), value()}]).
item() -> oneof([size, type, keypos, protection, named_table, name, id]).
pattern() -> oneof(['_', {'$1', '$2'}, {key(), '$1'}, {'_', '$1', '$1'}, {'$2', integer(0, 5)}]).

specification(Body) -> [{{'$1', '$2'}, oneof([[], [{'=:=', '$1', 1}], [{is_integer, '$2'}, {'>', '$2', 2}]]), Body}].
