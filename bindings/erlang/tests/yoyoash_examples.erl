%% @doc Ten examples after the manual of ets. Each one gives the same by `ets' and by `yoyoash'.
%%
%% `yoyoash_examples:main()' prints a line for each, and ends with status 1 if one differs.
%% Lists whose order is free are sorted.
-module(yoyoash_examples).
-export([main/0, examples/0, result/2]).
-include_lib("stdlib/include/ms_transform.hrl").

-type example() :: fun((module()) -> term()).

%% @doc Compares all examples, and ends the node with the status.
-spec main() -> no_return().
main() ->
    case yoyoash:start() of
        {ok, _} ->
            Same = [same(Name, result(Example, ets), result(Example, yoyoash)) || {Name, Example} <- examples()],
            yoyoash:stop(),
            halt(case lists:all(fun(Is) -> Is end, Same) of true -> 0; false -> 1 end);
        Error ->
            io:format(standard_error, "compare: ~ts~n", [yoyoash:format_error(Error)]),
            halt(1)
    end.

same(Name, Result, Result) -> io:format("~s: ~0tp~n", [Name, Result]), true;
same(Name, ByEts, ByStore) -> io:format("~s: ets ~0tp, yoyoash ~0tp~n", [Name, ByEts, ByStore]), false.

%% @doc Runs an example in a process of its own, so that its tables end with it.
-spec result(example(), module()) -> term().
result(Example, Module) ->
    {_, Ref} = spawn_monitor(fun() -> exit({result, value(Example, Module)}) end),
    receive {'DOWN', Ref, process, _, {result, Result}} -> Result end.

%% An error names the module, so that it differs even if both raise the same.
value(Example, Module) ->
    try
        Example(Module)
    catch
        error:Reason -> {error, Module, Reason}
    end.

%% @doc Returns the names of the examples, and for each a function that takes `ets' or `yoyoash'.
-spec examples() -> [{string(), example()}].
examples() ->
    [
        {"match binds variables", fun match_binds/1},
        {"match_object gives objects", fun match_object_gives/1},
        {"fun2ms and select", fun selects/1},
        {"select_count and select_delete", fun counts_and_deletes/1},
        {"update_counter with thresholds", fun counters/1},
        {"traversal with a fix, deleting", fun traversal/1},
        {"keys of sets and bags", fun keys/1},
        {"give_away and heirs", fun heirs/1},
        {"access and names", fun access/1},
        {"terms there and back", fun terms/1}
    ].

animals(M) ->
    T = M:new(animals, []),
    true = M:insert(T, [{rufsen, dog, 7}, {brunte, horse, 5}, {ludde, dog, 5}]),
    T.

match_binds(M) ->
    T = animals(M),
    [lists:sort(M:match(T, P)) || P <- [{'_', dog, '$1'}, {'$2', '_', '$1'}, {'_', cow, '_'}, '$1']].

match_object_gives(M) ->
    T = animals(M),
    [lists:sort(M:match_object(T, P)) || P <- [{'_', dog, '_'}, '_']].

selects(M) ->
    T = animals(M),
    Spec = ets:fun2ms(fun({Name, dog, Age}) when Age > 4, Age < 7 -> [Name | []] end),
    lists:sort(M:select(T, Spec)).

counts_and_deletes(M) ->
    T = animals(M),
    Spec = ets:fun2ms(fun({_, Kind, _}) when Kind =:= dog; Kind =:= cow -> true end),
    {M:select_count(T, Spec), M:select_delete(T, Spec), M:tab2list(T)}.

counters(M) ->
    T = M:new(counts, [{keypos, 1}]),
    true = M:insert(T, {k, 0, 10}),
    Values = [M:update_counter(T, k, Update) || Update <- [2, {3, -1}, {2, 5, 6, 1}, [{2, 1}, {3, -20, 0, 0}]]],
    {Values, M:update_counter(T, new, 7, {x, 1}), M:lookup(T, k)}.

traversal(M) ->
    T = M:new(visited, [bag]),
    true = M:insert(T, [{N, N rem 2} || N <- lists:seq(1, 50)]),
    true = M:safe_fixtable(T, true),
    ok = delete_odd(M, T, M:first(T)),
    true = M:safe_fixtable(T, false),
    {M:info(T, size), M:foldl(fun({N, 0}, Sum) -> N + Sum end, 0, T), length(M:info(T)) > 8}.

delete_odd(_, _, '$end_of_table') -> ok;
delete_odd(M, T, Key) ->
    true = M:delete_object(T, {Key, 1}),
    delete_odd(M, T, M:next(T, Key)).

keys(M) -> [keys(M, Type) || Type <- [set, bag, duplicate_bag]].

keys(M, Type) ->
    T = M:new(t, [Type]),
    [true = M:insert(T, {key, Value}) || Value <- [a, b, a]],
    {M:lookup(T, key), M:insert_new(T, {key, c}), M:lookup_element(T, key, 2), M:member(T, other), M:take(T, key)}.

heirs(M) ->
    Self = self(),
    T = M:new(given, [public, named_table]),
    {Other, Ref} = spawn_monitor(fun() ->
        receive {'ETS-TRANSFER', given, Self, gift} -> M:setopts(given, {heir, Self, back}) end
    end),
    true = M:give_away(T, Other, gift),
    receive
        {'ETS-TRANSFER', Table, Other, Data} ->
            {Table, Data, M:info(T, owner) =:= Self, receive {'DOWN', Ref, _, _, Why} -> Why end}
    end.

access(M) ->
    T = M:new(seen, [protected, named_table]),
    P = M:new(hidden, [private]),
    {_, Ref} = spawn_monitor(fun() ->
        exit([
            reason(fun() -> M:lookup(seen, a) end),
            reason(fun() -> M:insert(seen, {a}) end),
            reason(fun() -> M:lookup(P, a) end),
            reason(fun() -> M:info(P, protection) end)
        ])
    end),
    {M:whereis(T) =:= M:info(T, id), M:whereis(none), receive {'DOWN', Ref, _, _, Results} -> Results end}.

reason(Call) -> try Call() catch error:Reason -> Reason end.

terms(M) ->
    T = M:new(terms, []),
    Terms = [
        {'and', 'Quoted \\ \' atom', []}, "text", <<"bytes \\ \"">>, <<0, 200>>, <<>>, -(1 bsl 127), self(),
        {{}, [[]]}, T, 'end'
    ],
    Objects = lists:zip(lists:seq(1, length(Terms)), Terms),
    true = M:insert(T, Objects),
    [M:lookup_element(T, N, 2) =:= Term || {N, Term} <- Objects].
