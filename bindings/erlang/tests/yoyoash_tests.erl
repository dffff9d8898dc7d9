%% Tests of the calls, over the NIF if it is built, and over the program that YOYOASH_PROGRAM names or that the repository
%% holds: rebar3 eunit.
-module(yoyoash_tests).
-include_lib("eunit/include/eunit.hrl").
-import(yoyoash_help, [over_stores/2, on_store/2, backends/0, shown/1, contains/2, eventually/1]).

store_test_() -> over_stores(tests(), fun tests/1).

tests() ->
    [
        {"every call of the store", fun every_call/0},
        {"functions without a call of their own", fun other_functions/0},
        {"an error has its reason", fun reasons/0},
        {"a term that is not supported", fun unsupported_terms/0},
        {"terms that are too deep", fun deep_terms/0},
        {"terms there and back", fun random_terms/0},
        {"a message that is no call", fun no_call/0},
        {"a call for another process", fun for_another/0},
        {"a second store", fun second_store/0},
        {"two stores", fun two_stores/1}
    ].

tests(port) -> [{"a call that is too long", fun long_call/0}, {"the longest call", fun too_long/0}];
tests(nif) -> [].

%%% The ten examples by ets and by the store

examples_test_() ->
    [
        on_store(Backend, [{Name, fun() -> same_by_both(Example) end} || {Name, Example} <- yoyoash_examples:examples()])
     || Backend <- backends()
    ].

same_by_both(Example) ->
    ?assertEqual(yoyoash_examples:result(Example, ets), yoyoash_examples:result(Example, yoyoash)).

every_call() ->
    t = yoyoash:new(t, [named_table, public, {keypos, 1}]),
    true = yoyoash:insert(t, [{a, 1, x}, {b, 2, y}]),
    false = yoyoash:insert_new(t, {a, 2}),
    [{a, 1, x}] = yoyoash:lookup(t, a),
    true = yoyoash:member(t, b),
    1 = yoyoash:lookup_element(t, a, 2),
    none = yoyoash:lookup_element(t, c, 2, none),
    7 = yoyoash:update_counter(t, a, 6),
    4 = yoyoash:update_counter(t, c, {2, 1}, {k, 3}),
    true = yoyoash:update_element(t, a, {3, z}),
    true = yoyoash:update_element(t, d, [{2, w}], {k, v}),
    [[7]] = yoyoash:match(t, {a, '$1', '_'}),
    [{b, 2, y}] = yoyoash:match_object(t, {'_', 2, '_'}),
    [{c, 4}] = yoyoash:select(t, [{{'_', '$1'}, [{'=:=', '$1', 4}], ['$_']}]),
    2 = yoyoash:select_count(t, [{{'_', '_'}, [], [true]}]),
    1 = yoyoash:select_delete(t, [{{'_', w}, [], [true]}]),
    true = yoyoash:match_delete(t, {c, '_'}),
    true = yoyoash:safe_fixtable(t, true),
    Key = yoyoash:first(t),
    {Key, [Object]} = yoyoash:first_lookup(t),
    Other = yoyoash:next(t, Key),
    {Other, [_]} = yoyoash:next_lookup(t, Key),
    '$end_of_table' = yoyoash:next(t, Other),
    true = yoyoash:safe_fixtable(t, false),
    true = yoyoash:delete_object(t, Object),
    [_] = yoyoash:tab2list(t),
    [_] = yoyoash:take(t, Other),
    0 = yoyoash:info(t, size),
    true = yoyoash:insert(t, {a}),
    true = yoyoash:delete(t, a),
    true = yoyoash:delete_all_objects(t),
    true = yoyoash:setopts(t, {heir, none}),
    true = is_reference(yoyoash:whereis(t)),
    Pid = spawn(fun() -> receive stop -> ok end end),
    true = yoyoash:give_away(t, Pid, gift),
    Pid = yoyoash:info(t, owner),
    Mine = yoyoash:new(mine, []),
    true = yoyoash:delete(Mine),
    Pid ! stop,
    ok.

other_functions() ->
    t = yoyoash:new(t, [named_table]),
    true = yoyoash:insert(t, [{N} || N <- lists:seq(1, 4)]),
    10 = yoyoash:foldl(fun({N}, Sum) -> N + Sum end, 0, t),
    10 = yoyoash:foldr(fun({N}, Sum) -> N + Sum end, 0, t),
    4 = proplists:get_value(size, yoyoash:info(t)),
    undefined = yoyoash:info(none),
    Compiled = yoyoash:match_spec_compile([{{'$1'}, [], ['$1']}]),
    true = yoyoash:is_compiled_ms(Compiled),
    [1] = yoyoash:match_spec_run([{1}], Compiled),
    {ok, 1} = yoyoash:test_ms({1}, [{{'$1'}, [], ['$1']}]),
    ok.

%% What the shell shows has the function, its arguments and the reason.
reasons() ->
    {badarg, Shown} = shown(fun() -> yoyoash:lookup(nosuch, a) end),
    contains(Shown, "yoyoash:lookup(nosuch,a)"),
    contains(Shown, "argument 1: no such table"),
    {badarg, Other} = shown(fun() -> yoyoash:call_as(self(), lookup, [nosuch, a]) end),
    contains(Other, "argument 1: no such table"),
    {undef, _} = shown(fun() -> yoyoash:call_as(self(), rename, [a, b]) end),
    t = yoyoash:new(t, [named_table]),
    {badarg, Third} = shown(fun() -> yoyoash:update_counter(t, a, 1) end),
    contains(Third, "argument 2: "),
    {system_limit, _} = shown(fun() -> yoyoash:update_counter(t, a, 1, {a, (1 bsl 127) - 1}) end),
    ok.

unsupported_terms() ->
    t = yoyoash:new(t, [named_table]),
    [
        begin
            {badarg, Shown} = shown(fun() -> yoyoash:insert(t, {a, Term}) end),
            contains(Shown, "argument 2: ")
        end
     || Term <- [1.5, #{}, fun() -> ok end, make_ref(), [a | b], 1 bsl 127, <<1:3>>, 'å', hd(erlang:ports())]
    ],
    [] = yoyoash:lookup(t, a),
    ok.

long_call() ->
    t = yoyoash:new(t, [named_table]),
    {system_limit, Shown} = shown(fun() -> yoyoash:insert(t, {a, binary:copy(<<"x">>, 16_777_200)}) end),
    contains(Shown, "16,777,211"),
    true = yoyoash:insert(t, {a, binary:copy(<<"x">>, 1_000_000)}),
    [{a, <<"xx", _/binary>>}] = yoyoash:lookup(t, a),
    ok.

%% The longest call is made, a longer one is refused with the limit, and the tables stay.
too_long() ->
    t = yoyoash:new(t, [named_table]),
    Other = byte_size(term_to_binary({insert, [t, {a, <<>>}]}, [{minor_version, 2}])),
    Longest = binary:copy(<<"x">>, 16_777_211 - Other),
    true = yoyoash:insert(t, {a, Longest}),
    {system_limit, Shown} = shown(fun() -> yoyoash:insert(t, {b, <<Longest/binary, "x">>}) end),
    contains(Shown, "16,777,211 bytes"),
    [{a, Longest}] = yoyoash:tab2list(t),
    ok.

%% An object may have 126 levels, since the call is two more.
deep_terms() ->
    t = yoyoash:new(t, [named_table]),
    true = yoyoash:insert(t, {a, deep(125)}),
    ?assertEqual([{a, deep(125)}], yoyoash:lookup(t, a)),
    ?assertEqual([{a, deep(125)}], yoyoash:tab2list(t)),
    {badarg, Shown} = shown(fun() -> yoyoash:insert(t, {a, deep(126)}) end),
    contains(Shown, "128 levels"),
    ok.

deep(1) -> x;
deep(Levels) -> [deep(Levels - 1)].

random_terms() ->
    _ = rand:seed(exsss, 7),
    t = yoyoash:new(t, [named_table]),
    [
        begin
            Term = random_term(4),
            true = yoyoash:insert(t, {a, Term}),
            ?assertEqual([{a, Term}], yoyoash:lookup(t, a))
        end
     || _ <- lists:seq(1, 500)
    ],
    ok.

random_term(0) ->
    Int = rand:uniform(1 bsl 60) - (1 bsl 59),
    pick([Int, '', a, 'A b', 'it\'s \\', <<>>, [], {}, self(), "text", <<"a\"\\">>]);
random_term(Depth) ->
    Size = rand:uniform(4) - 1,
    case rand:uniform(4) of
        1 -> random_term(0);
        2 -> [random_term(Depth - 1) || _ <- lists:seq(1, Size)];
        3 -> list_to_tuple([random_term(Depth - 1) || _ <- lists:seq(1, Size)]);
        4 -> list_to_binary([rand:uniform(256) - 1 || _ <- lists:seq(1, Size)])
    end.

pick(List) -> lists:nth(rand:uniform(length(List)), List).

%% Sends messages that are no calls of the store: they are refused, and the tables stay.
no_call() ->
    t = yoyoash:new(t, [named_table]),
    {error, badarg, {general, _}} = gen_server:call(yoyoash, state),
    {error, badarg, {general, _}} = gen_server:call(yoyoash, {a, b, c}),
    true = is_reference(yoyoash:whereis(t)),
    ok.

for_another() ->
    Pid = spawn(fun() -> receive stop -> ok end end),
    t = yoyoash:call_as(Pid, new, [t, [named_table]]),
    Pid = yoyoash:info(t, owner),
    {badarg, _} = shown(fun() -> yoyoash:insert(t, {a}) end),
    true = yoyoash:call_as(Pid, insert, [t, {a}]),
    Pid ! stop,
    eventually(fun() -> yoyoash:whereis(t) =:= undefined end),
    {badarg, _} = shown(fun() -> yoyoash:call_as(Pid, lookup, [t, a]) end),
    ok.

second_store() ->
    {error, Reason = {already_started, _}} = yoyoash:start(),
    contains(yoyoash:format_error(Reason), "yoyoash:stop()"),
    contains(yoyoash:format_error(Reason), "application:stop(yoyoash)"),
    ok.

two_stores(Backend) ->
    {ok, Pid} = yoyoash:start(#{backend => Backend, name => my_store, max_tables => 1}),
    {error, {already_started, Pid}} = yoyoash:start(#{backend => Backend, name => my_store}),
    t = yoyoash:new(t, [named_table]),
    t = yoyoash:call(my_store, new, [t, [named_table]]),
    true = yoyoash:call(Pid, insert, [t, {a, self()}]),
    ?assertEqual([{a, self()}], yoyoash:call(my_store, lookup, [t, a])),
    [] = yoyoash:lookup(t, a),
    {system_limit, _} = shown(fun() -> yoyoash:call(my_store, new, [u, []]) end),
    {badarg, Shown} = shown(fun() -> yoyoash:call(my_store, lookup, [nosuch, a]) end),
    contains(Shown, "argument 1: no such table"),
    {undef, _} = shown(fun() -> yoyoash:call(my_store, no_call, [t]) end),
    Unnamed = yoyoash:new(u, []),
    {badarg, _} = shown(fun() -> yoyoash:call(my_store, lookup, [Unnamed, a]) end),
    Owner = spawn(fun yoyoash_help:until_stopped/0),
    {system_limit, _} = shown(fun() -> yoyoash:call_as(my_store, Owner, new, [u, []]) end),
    Owner ! stop,
    ok = yoyoash:stop(my_store),
    {badarg, _} = shown(fun() -> yoyoash:call(my_store, lookup, [t, a]) end),
    [] = yoyoash:lookup(t, a),
    ?assertMatch(#{id := my_store}, yoyoash:child_spec(#{name => my_store})),
    ok.
