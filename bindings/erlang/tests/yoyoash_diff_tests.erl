%% Tests of the comparison with `ets': differences that are planted are found and shrunk, and random calls show none.
-module(yoyoash_diff_tests).
-include_lib("eunit/include/eunit.hrl").
-import(yoyoash_help, [backends/0, contains/2]).

diff_test_() ->
    Random = [{lists:concat(["random calls, ", Backend]), fun() -> random_calls(Backend) end} || Backend <- backends()],
    [{Name, {timeout, 300, Test}} || {Name, Test} <- tests() ++ Random].

tests() ->
    [
        {"a planted difference", fun planted/0},
        {"a planted difference in a message", fun planted_message/0},
        {"arguments are shrunk", fun arguments/0},
        {"differences that are known", fun known/0},
        {"equal calls", fun equal/0},
        {"calls that cannot be compared", fun refused/0}
    ].

%% Hides three calls and a look at the table among a hundred others.
planted() ->
    Others = [{insert, [t, {N, N}]} || N <- lists:seq(1, 50)] ++ [{lookup, [t, N]} || N <- lists:seq(1, 50)],
    {Before, After} = lists:split(60, Others),
    Object = {k, 700, <<"text">>},
    Fault = [{p, insert, [t, Object]}, {delete_object, [t, Object]}, {lookup, [t, j]}, {p, lookup, [t, k]}],
    Calls = [{new, [t, [named_table, public, {keypos, 1}]]} | Before] ++ Fault ++ After,
    {different, Difference} = yoyoash_diff:run(Calls, #{reference => yoyoash_planted, print => false}),
    #{calls := Least, reference := {ok, [Kept]}, store := {ok, []}, known := none} = Difference,
    ?assertMatch([{new, [t, _]}, {insert, [t, Kept]}, {delete_object, [t, Kept]}, {lookup, [t, k]}], Least),
    contains(lists:flatten(yoyoash_diff:format(Difference)), "The last of 4 calls differs:"),
    contains(lists:flatten(yoyoash_diff:format(Difference)), "yoyoash: {ok,[]}").

%% The heir of a table gets a message from the store, and none from the planted module.
planted_message() ->
    Calls = [
        {new, [t, []]}, {p, new, [u, [named_table]]}, {p, insert, [u, {1}]}, {p, setopts, [u, {heir, {process, q}, 1}]},
        {q, lookup, [u, 1]}, {insert, [{table, t}, {1}]}, {exit, p}, {q, tab2list, [u]}
    ],
    {different, Difference} = yoyoash_diff:run(Calls, #{reference => yoyoash_planted, print => false}),
    #{calls := Least, reference := {ok, exit}, store := {ok, exit, Messages}} = Difference,
    ?assertMatch([{q, {'ETS-TRANSFER', _, {process, p}, 0}}], Messages),
    ?assertMatch([{p, new, [u, _]}, {p, setopts, [u, {heir, {process, q}, 0}]}, {exit, p}], Least).

%% Lists become shorter, numbers smaller, and other processes `main'.
arguments() ->
    Calls = [
        {p, new, [t, [named_table, public, bag, {keypos, 1}]]}, {q, insert, [t, [{5, 8}, {9, 1000}, {9, 3}, {7, 8}]]},
        {q, lookup, [t, 9]}
    ],
    {different, #{calls := Least}} = yoyoash_diff:run(Calls, #{print => false}),
    ?assertMatch([{new, [t, [bag, named_table]]}, {insert, [t, [{_, _}, {_, _}]]}, {lookup, [t, _]}], sorted_options(Least)).

sorted_options([{new, [Name, Options]} | Calls]) -> [{new, [Name, lists:sort(Options)]} | Calls].

%% Each names the section of the page that states it.
known() ->
    New = {new, [t, [bag, named_table]]},
    [
        begin
            {different, #{known := Known}} = yoyoash_diff:run([New | Calls], #{print => false}),
            ?assertEqual({Section, Calls}, {Known, Calls})
        end
     || {Section, Calls} <- [
            {"Insertion", [{insert, [t, [{a, 1}, {a, 2}]]}, {lookup, [t, a]}]},
            {"Terms and limits", [{insert, [t, {a, 1.5}]}]},
            {"Terms and limits", [{insert, [t, {'$end_of_table'}]}]},
            {"Terms and limits", [{new, [u, [ordered_set]]}]},
            {"The 70 functions", [{last, [t]}]},
            {"Match specifications", [{match, [t, 5]}]},
            {"Match specifications", [{insert, [t, {a}]}, {select, [t, [{'_', [], [{hd, []}, x]}]]}]},
            {"Owners, heirs and info", [{info, [t, compressed]}]},
            {"Counters and elements", [{new, [u, [named_table]]}, {update_element, [u, no, {1, x}]}]}
        ]
    ],
    ok.

equal() ->
    same = yoyoash_diff:run([]),
    same = yoyoash_diff:run([{lookup, [none, a]}, {exit, main}, {exit, main}]),
    same = yoyoash_diff:run([
        {new, [t, []]}, {insert, [{table, t}, [{N, {table, t}, {process, p}} || N <- lists:seq(1, 50)]]},
        {give_away, [{table, t}, {process, p}, gift]}, {tab2list, [{table, t}]}, {p, first, [{table, t}]},
        {p, next, [{table, t}, 7]},
        {info, [{table, t}, owner]}, {exit, p}, {p, lookup, [{table, t}, 7]}, {p, new, [t, [named_table]]}, {whereis, [t]}
    ]),
    ok.

refused() ->
    ?assertError({no_call, {lookup, t}}, yoyoash_diff:run([{lookup, t}])),
    ?assertError({no_call, {lookup, [t | a]}}, yoyoash_diff:run([{lookup, [t, a]}, {lookup, [t | a]}])),
    ?assertError({no_store, "there is no program /none" ++ _}, yoyoash_diff:run([], #{store => #{program => "/none"}})).

%% Needs PropEr: without it, the error says how to get it. Most of the calls are not refused, and the seed chooses them.
random_calls(Backend) ->
    case code:ensure_loaded(proper_gen) of
        {module, _} ->
            lists:foreach(fun(Seed) -> random_calls(Seed, Backend) end, lists:seq(1, 10)),
            Is = fun(Calls) -> yoyoash_diff:run(Calls, #{store => #{backend => Backend}, print => false}) =:= same end,
            ?assert(proper:quickcheck(proper:forall(yoyoash_calls:calls(), Is), [quiet, {numtests, 10}]));
        {error, _} -> ?assertError({no_proper, _}, yoyoash_diff:random(1, 1))
    end.

random_calls(Seed, Backend) ->
    Calls = yoyoash_diff:random(Seed, 200),
    ?assertEqual({200, Calls}, {length(Calls), yoyoash_diff:random(Seed, 200)}),
    ?assertNotEqual(Calls, yoyoash_diff:random(Seed + 1, 200)),
    ?assertEqual(same, yoyoash_diff:run(Calls, #{store => #{backend => Backend}})),
    Outcomes = [Outcome || {Outcome, _Why} <- yoyoash_diff_side:outcomes(Calls, {module, ets})],
    ?assert(length([Value || Value <- Outcomes, element(1, Value) =:= ok]) >= 100).
