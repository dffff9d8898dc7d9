%% @doc Writes and reads Erlang's terms in the External Term Format, as the store has them.
%%
%% A pid is written as a pid of the node `nonode@nohost', and the reference of a table as a reference of it, both with the
%% store's number. A term without pids and references is written and read by the runtime.
-module(yoyoash_term).
-export([is_plain/1, plain/2, write/3, read/2, pids/1, first_bad_atom/1, atoms/0]).

-define(LEAST, -(1 bsl 127)).
-define(GREATEST, ((1 bsl 127) - 1)).
%% Integers that are compared without memory.
-define(SMALL, (1 bsl 58)).
%% The name of the node, as an atom of the format.
-define(NODE, 119, 13, "nonode@nohost").

%% @doc Says whether {@link plain/2} writes a term as the store reads it. It does not look into atoms.
-spec is_plain(term()) -> boolean().
is_plain(Int) when is_integer(Int), Int > -?SMALL, Int < ?SMALL -> true;
is_plain(Leaf) when is_atom(Leaf); is_binary(Leaf) -> true;
is_plain(List) when is_list(List) -> is_plain_list(List);
is_plain(Tuple) when is_tuple(Tuple) -> is_plain_list(tuple_to_list(Tuple));
is_plain(Int) when is_integer(Int) -> Int >= ?LEAST andalso Int =< ?GREATEST;
is_plain(_Other) -> false.

is_plain_list([Head | Tail]) -> is_plain(Head) andalso is_plain_list(Tail);
is_plain_list(Tail) -> Tail =:= [].

%% @doc Writes a call whose arguments are plain.
-spec plain(atom(), [term()]) -> binary().
plain(Name, Args) -> bytes({Name, Args}).

bytes(Term) -> term_to_binary(Term, [{minor_version, 2}]).

%% @doc Writes a call, or says for which argument the store has no term. Throws `forgotten' for a pid without a number.
-spec write(atom(), [term()], yoyoash_known:known()) -> {ok, binary()} | {error, yoyoash_errors:cause()}.
write(Name, Args, Known) -> write(Name, Args, 1, Known, []).

write(Name, [], Number, _Known, Written) ->
    Tuple = [<<131, 104, 2>>, leaf(Name), <<108, (Number - 1):32>>, lists:reverse(Written), 106],
    {ok, iolist_to_binary(Tuple)};
write(Name, [Arg | Args], Number, Known, Written) ->
    try bytes(Arg, Known) of
        Bytes -> write(Name, Args, Number + 1, Known, [Bytes | Written])
    catch
        throw:{no_term, Why} -> {error, {argument, Number, Why}}
    end.

bytes(Int, _) when is_integer(Int), Int >= ?LEAST, Int =< ?GREATEST -> leaf(Int);
bytes(Leaf, _) when is_atom(Leaf); is_binary(Leaf); Leaf =:= [] -> leaf(Leaf);
bytes(Pid, Known) when is_pid(Pid) -> [<<88, ?NODE>>, <<(identifier(Pid, Known)):32, 0:64>>];
bytes(Ref, Known) when is_reference(Ref) -> [<<90, 1:16, ?NODE>>, <<0:32, (identifier(Ref, Known)):32>>];
bytes(Tuple, Known) when is_tuple(Tuple), tuple_size(Tuple) < 256 ->
    [104, tuple_size(Tuple) | each(tuple_to_list(Tuple), Known)];
bytes(Tuple, Known) when is_tuple(Tuple) ->
    [<<105, (tuple_size(Tuple)):32>> | each(tuple_to_list(Tuple), Known)];
bytes(List, Known) when is_list(List), length(List) > 0 -> [<<108, (length(List)):32>>, each(List, Known), 106];
bytes(Other, _) -> throw({no_term, unsupported(Other)}).

each(Terms, Known) -> [bytes(Term, Known) || Term <- Terms].

leaf(Term) ->
    <<131, Bytes/binary>> = bytes(Term),
    Bytes.

identifier(Identifier, Known) ->
    case yoyoash_known:number(Identifier, Known) of
        none when is_pid(Identifier) -> throw(forgotten);
        none -> throw({no_term, unsupported(Identifier)});
        N -> N
    end.

unsupported(Term) when is_float(Term) -> <<"floats are not supported">>;
unsupported(Term) when is_integer(Term) -> <<"integer out of range: the store has 128 bits">>;
unsupported(Term) when is_map(Term) -> <<"maps are not supported">>;
unsupported(Term) when is_function(Term) -> <<"funs are not supported">>;
unsupported(Term) when is_port(Term) -> <<"ports are not supported">>;
unsupported(Term) when is_list(Term) -> <<"improper lists are not supported">>;
unsupported(Term) when is_bitstring(Term) -> <<"bit strings that are not binaries are not supported">>;
unsupported(Term) when is_reference(Term) -> <<"references that no table of this store has are not supported">>;
unsupported(_) -> <<"the term is not supported">>.

%% @doc Returns the pids in a term.
-spec pids(term()) -> [pid()].
pids(Term) ->
    case is_plain(Term) of
        true -> [];
        false -> lists:reverse(pids(Term, []))
    end.

pids(Pid, Found) when is_pid(Pid) -> [Pid | Found];
pids(Tuple, Found) when is_tuple(Tuple) -> pids(tuple_to_list(Tuple), Found);
pids([Head | Tail], Found) -> pids(Tail, pids(Head, Found));
pids(_, Found) -> Found.

%% @doc Returns the number of the first argument with an atom that the store does not have, or `none'.
%%
%% Nobody looks at the characters of atoms before a call is sent, since that takes longer than the rest: the store
%% refuses these atoms, and then this function finds the argument.
-spec first_bad_atom([term()]) -> pos_integer() | none.
first_bad_atom(Args) -> first_bad_atom(Args, 1).

first_bad_atom([], _Number) -> none;
first_bad_atom([Arg | Args], Number) ->
    case are_ascii(Arg) of
        true -> first_bad_atom(Args, Number + 1);
        false -> Number
    end.

are_ascii(Atom) when is_atom(Atom) -> lists:all(fun(C) -> C >= 32 andalso C < 127 end, atom_to_list(Atom));
are_ascii(Tuple) when is_tuple(Tuple) -> are_ascii(tuple_to_list(Tuple));
are_ascii([Head | Tail]) -> are_ascii(Head) andalso are_ascii(Tail);
are_ascii(_Other) -> true.

%% @doc Reads one term. A table without a name becomes a reference, as in `ets'.
%%
%% No atom is made. Each atom of an answer came from this node or is one of the store's own, so it exists here. On a node
%% without a name the runtime takes the store's pids and references for its own, and refuses some: such terms, and all
%% others with pids or references, are read here. Throws `forgotten' for the number of a pid that was forgotten.
-spec read(binary(), yoyoash_known:known()) -> term().
read(Bytes, Known) ->
    try binary_to_term(Bytes, [safe]) of
        Term ->
            case is_plain(Term) of
                true -> Term;
                false -> translated(Bytes, Known)
            end
    catch
        error:badarg -> translated(Bytes, Known)
    end.

%% @doc Returns the atoms that the store answers by itself. They exist as soon as this module is loaded.
-spec atoms() -> [atom()].
atoms() ->
    ['$end_of_table', 'EXIT', 'ETS-TRANSFER', true, false, undefined, none,
     set, bag, duplicate_bag, public, protected, private, nonode@nohost].

translated(<<131, Bytes/binary>>, Known) ->
    {Term, <<>>} = term(Bytes, Known),
    Term.

%% Reads the forms that the store writes.
term(<<97, N, Rest/binary>>, _) -> {N, Rest};
term(<<98, N:32/signed, Rest/binary>>, _) -> {N, Rest};
term(<<110, Size, 0, N:Size/unit:8-little, Rest/binary>>, _) -> {N, Rest};
term(<<110, Size, 1, N:Size/unit:8-little, Rest/binary>>, _) -> {-N, Rest};
term(<<119, Size, Name:Size/binary, Rest/binary>>, _) -> {binary_to_existing_atom(Name), Rest};
term(<<104, Arity, Rest/binary>>, Known) -> tuple(Arity, Rest, Known);
term(<<105, Arity:32, Rest/binary>>, Known) -> tuple(Arity, Rest, Known);
term(<<106, Rest/binary>>, _) -> {[], Rest};
term(<<107, Size:16, String:Size/binary, Rest/binary>>, _) -> {binary_to_list(String), Rest};
term(<<108, Size:32, Rest/binary>>, Known) ->
    {List, <<106, More/binary>>} = terms(Size, Rest, [], Known),
    {List, More};
term(<<109, Size:32, Binary:Size/binary, Rest/binary>>, _) -> {binary:copy(Binary), Rest};
term(<<88, ?NODE, N:32, 0:64, Rest/binary>>, Known) -> {yoyoash_known:pid(N, Known), Rest};
term(<<90, 1:16, ?NODE, 0:32, N:32, Rest/binary>>, Known) -> {yoyoash_known:table(N, Known), Rest}.

tuple(Arity, Bytes, Known) ->
    {Elements, Rest} = terms(Arity, Bytes, [], Known),
    {list_to_tuple(Elements), Rest}.

terms(0, Rest, Terms, _) -> {lists:reverse(Terms), Rest};
terms(Count, Bytes, Terms, Known) ->
    {Term, Rest} = term(Bytes, Known),
    terms(Count - 1, Rest, [Term | Terms], Known).
