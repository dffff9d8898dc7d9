%% Tests of terms and reasons as bytes, without a store.
-module(yoyoash_term_tests).
-include_lib("eunit/include/eunit.hrl").

%% An atom that the node does not have is not made.
atom_test() ->
    Name = <<"never_an_atom_", (integer_to_binary(erlang:unique_integer([positive])))/binary>>,
    Known = yoyoash_known:new(),
    ?assertError(badarg, yoyoash_term:read(<<131, 119, (byte_size(Name)), Name/binary>>, Known)),
    ?assertError(badarg, binary_to_existing_atom(Name)).

%% Numbers that pids and references of this node cannot have are read, too.
great_numbers_test_() ->
    [?_assert(great_number(N)) || N <- [0, 1, 262_143, 262_144, 268_435_455, 268_435_456, 4_294_967_295]].

great_number(N) ->
    Known = yoyoash_known:new(),
    true = yoyoash_known:add(self(), N, false, Known),
    {ok, <<131, 104, 2, 119, 2, "ab", 108, 1:32, Pid:28/binary, 106>>} = yoyoash_term:write(ab, [self()], Known),
    Self = self(),
    Self = yoyoash_term:read(<<131, Pid/binary>>, Known),
    Ref = yoyoash_term:read(table_bytes(N), Known),
    Ref = yoyoash_term:read(table_bytes(N), Known),
    [Ref, Self] = yoyoash_term:read(<<131, 108, 2:32, (tail(table_bytes(N)))/binary, Pid/binary, 106>>, Known),
    {ok, Written} = yoyoash_term:write(ab, [Ref], Known),
    Written =:= <<131, 104, 2, 119, 2, "ab", 108, 1:32, (tail(table_bytes(N)))/binary, 106>>.

table_bytes(N) -> <<131, 90, 1:16, 119, 13, "nonode@nohost", 0:32, N:32>>.

tail(<<131, Rest/binary>>) -> Rest.

%% Terms with pids are written here, and as the runtime reads them.
translated_test() ->
    Known = yoyoash_known:new(),
    true = yoyoash_known:add(self(), 7, false, Known),
    Self = self(),
    Args = [
        -1, 255, 256, -(1 bsl 127), (1 bsl 127) - 1, 1 bsl 31, [], "text", <<"b">>, 'A b', {},
        list_to_tuple(lists:seq(1, 300)), [Self, {Self, [Self]}]
    ],
    {ok, Bytes} = yoyoash_term:write(name, Args, Known),
    {ok, Same} = yoyoash_term:write(name, lists:droplast(Args), Known),
    ?assertEqual({name, lists:droplast(Args)}, binary_to_term(Same)),
    ?assertMatch({name, _}, binary_to_term(Bytes)),
    ?assertEqual([Self, Self, Self], yoyoash_term:pids(Args)),
    ?assertEqual({name, Args}, yoyoash_term:read(Bytes, Known)).

%% Finds the first argument with an atom past ASCII.
bad_atom_test_() ->
    [
        ?_assertEqual(none, yoyoash_term:first_bad_atom([a, {b, [c]}])),
        ?_assertEqual(2, yoyoash_term:first_bad_atom([a, {b, ['\x{e5}']}, 'line\n']))
    ].

cause_test_() ->
    [
        ?_assertEqual({argument, 2, <<"a: b">>}, yoyoash_errors:cause(<<"argument 2: a: b">>)),
        ?_assertEqual({general, <<"gone: b">>}, yoyoash_errors:cause(<<"gone: b">>)),
        ?_assertEqual({general, <<"arguments">>}, yoyoash_errors:cause(<<"arguments">>)),
        ?_assertEqual(none, yoyoash_errors:cause(<<>>))
    ].

%% A pid is forgotten, unless it is kept. A number that was forgotten is an exception of its own.
forgotten_test() ->
    Known = yoyoash_known:new(),
    Self = self(),
    true = yoyoash_known:add(Self, 7, false, Known),
    ok = yoyoash_known:forget(Self, 7, Known),
    none = yoyoash_known:number(Self, Known),
    ?assertThrow(forgotten, yoyoash_known:pid(7, Known)),
    ?assertThrow(forgotten, yoyoash_term:write(ab, [Self], Known)),
    0 = ets:info(Known, size),
    true = yoyoash_known:add(Self, 8, false, Known),
    8 = yoyoash_known:kept(Self, Known),
    ok = yoyoash_known:forget(Self, 8, Known),
    8 = yoyoash_known:number(Self, Known),
    Self = yoyoash_known:pid(8, Known).
