%% Makes terms for .ci/external, and reads what its program read of changed ones.
-module(external).
-export([make/1, compare/1]).

%% Writes the files `terms`, of random terms, and `changed`, of the same with one byte changed or cut off.
make([Count]) ->
    rand:seed(exsss, {1, 2, 3}),
    Terms = [encode(term(4)) || _ <- lists:seq(1, list_to_integer(Count))],
    ok = file:write_file("terms", [line(Term) || Term <- Terms]),
    ok = file:write_file("changed", [line(change(Term)) || Term <- Terms]).

encode(Term) -> term_to_binary(Term, [{minor_version, 2}]).

line(Bytes) -> [binary:encode_hex(Bytes), $\n].

%% A random term of the profile, of at most this many levels below it.
term(0) -> leaf(rand:uniform(5));
term(Levels) ->
    case rand:uniform(9) of
        6 -> list_to_tuple(terms(Levels));
        7 -> terms(Levels);
        8 -> [rand:uniform(300) - 1 || _ <- lists:seq(1, rand:uniform(40) - 1)];
        9 -> long(rand:uniform(200), Levels);
        Kind -> leaf(Kind)
    end.

terms(Levels) -> [term(Levels - 1) || _ <- lists:seq(1, rand:uniform(6) - 1)].

%% Now and then a length that takes more than one byte.
long(1, _) -> list_to_tuple(lists:seq(1, 250 + rand:uniform(12)));
long(2, _) -> [rand:uniform(256) - 1 || _ <- lists:seq(1, 65530 + rand:uniform(12))];
long(3, _) -> rand:bytes(250 + rand:uniform(12));
long(_, Levels) -> terms(Levels).

leaf(1) -> integer(rand:uniform(6));
leaf(2) -> list_to_atom([31 + rand:uniform(95) || _ <- lists:seq(1, rand:uniform(40) - 1)]);
leaf(3) -> rand:bytes(rand:uniform(30) - 1);
leaf(4) -> list_to_pid("<0." ++ integer_to_list(rand:uniform(32768) - 1) ++ ".0>");
leaf(5) -> integer(rand:uniform(6)).

integer(1) -> rand:uniform(256) - 1;
integer(2) -> sign(rand:uniform(70000) - 1);
integer(3) -> sign((1 bsl 31) + rand:uniform(5) - 3);
integer(4) -> sign(rand:uniform(1 bsl 64) - 1);
integer(5) -> sign((1 bsl (8 * rand:uniform(15))) + rand:uniform(5) - 3);
integer(6) -> sign((1 bsl 127) - rand:uniform(3)).

sign(N) -> N * (rand:uniform(2) * 2 - 3).

change(Bytes) ->
    At = rand:uniform(byte_size(Bytes)) - 1,
    <<Before:At/binary, Byte, After/binary>> = Bytes,
    case rand:uniform(3) of
        1 -> Before;
        2 -> <<Before/binary, (rand:uniform(256) - 1), After/binary>>;
        3 -> <<Before/binary, (Byte bxor (1 bsl (rand:uniform(8) - 1))), After/binary>>
    end.

%% Writes to `wrong` the lines that the program read as another term than Erlang. What it refuses is not compared: the profile has
%% fewer terms.
compare([Given, Replies]) ->
    Wrong = [Line || {Line, Reply} <- lists:zip(lines(Given), lines(Replies)), is_wrong(Line, Reply)],
    ok = file:write_file("wrong", lists:join(" ", Wrong)).

%% (a fault has a parenthesis)
is_wrong(Line, Reply) -> binary:match(Reply, <<"(">>) =:= nomatch andalso not is_same(Line, Reply) andalso not has_great_pid(Reply).

%% Returns whether a pid is of 2^15 or more, which Erlang refuses.
has_great_pid(Reply) -> re:run(Reply, <<"58770D6E6F6E6F6465406E6F686F7374(?!0000[0-7])">>) =/= nomatch.

is_same(Line, Reply) ->
    try binary_to_term(binary:decode_hex(Reply)) =:= element(1, binary_to_term(binary:decode_hex(Line), [used])) catch error:badarg -> false end.

lines(File) ->
    {ok, Bytes} = file:read_file(File),
    binary:split(Bytes, <<"\n">>, [global, trim]).
