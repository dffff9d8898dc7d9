%% The same script language as `ets_script`, over Erlang/OTP's own ets, in one run of erl.
%%
%% The first process of a script reads the script, so its calls cost no message; each further one is a
%% process of its own that is asked by messages. It takes good scripts only.
-module(ets_peer).
-export([main/0]).

main() ->
    Port = open_port({fd, 0, 1}, [binary, {line, 70000}, eof]),
    put(pids, #{}),
    read(Port, [], 0).

%% Answers go out a thousand lines at a time, or when no line waits: the port writes them, and a halt flushes it.
read(Port, Out, 1000) ->
    port_command(Port, lists:reverse(Out)),
    read(Port, [], 0);
read(Port, Out, Count) ->
    Patience = case Count of 0 -> infinity; _ -> 0 end,
    receive
        {Port, {data, {eol, Line}}} ->
            case answer(Line) of
                none -> read(Port, Out, Count);
                Text -> read(Port, [[Text, $\n] | Out], Count + 1)
            end;
        {Port, eof} ->
            port_command(Port, lists:reverse(Out)),
            halt(0)
    after Patience ->
        read(Port, Out, 1000)
    end.

%% ---- lines ----

answer(<<>>) -> none;
answer(<<"%", _/binary>>) -> none;
answer(<<"spawn ", Name/binary>>) ->
    Number = map_size(get(pids)),
    Pid = case Number of 0 -> self(); _ -> spawn(fun serve/0) end,
    put(pids, (get(pids))#{Name => Pid}),
    put({number, Pid}, Number),
    put({pid, Number}, Pid),
    print(Pid);
answer(<<"exit ", Name/binary>>) ->
    Pid = maps:get(Name, get(pids)),
    Ref = monitor(process, Pid),
    Pid ! stop,
    receive {'DOWN', Ref, _, _, _} -> <<"true">> end;
answer(Line) ->
    {Name, Rest} = word(Line, 0),
    {Word, <<"(", Rest1/binary>>} = word(skip(Rest), 0),
    {Args, _} = row(Rest1, $)),
    Pid = maps:get(Name, get(pids)),
    print(case Pid =:= self() of
        true -> call(Word, Args);
        false -> Pid ! {ask, self(), Word, Args}, receive {reply, Reply} -> Reply end
    end).

serve() ->
    receive
        {ask, From, Word, Args} -> From ! {reply, call(Word, Args)}, serve();
        stop -> ok
    end.

call(<<"new">>, [Name, Options]) -> ets:new(Name, Options);
call(<<"insert">>, [T, X]) -> ets:insert(T, X);
call(<<"lookup">>, [T, K]) -> ets:lookup(T, K);
call(<<"member">>, [T, K]) -> ets:member(T, K);
call(<<"delete">>, [T, K]) -> ets:delete(T, K);
call(<<"delete">>, [T]) -> ets:delete(T);
call(<<"update_counter">>, [T, K, U]) -> ets:update_counter(T, K, U);
call(<<"match">>, [T, P]) -> ets:match(T, P);
call(<<"select">>, [T, S]) -> ets:select(T, S);
call(<<"select_count">>, [T, S]) -> ets:select_count(T, S);
call(<<"select_delete">>, [T, S]) -> ets:select_delete(T, S);
call(<<"tab2list">>, [T]) -> ets:tab2list(T);
call(<<"safe_fixtable">>, [T, B]) -> ets:safe_fixtable(T, B);
call(<<"first">>, [T]) -> ets:first(T);
call(<<"next">>, [T, K]) -> ets:next(T, K);
call(<<"receive">>, []) -> messages().

messages() ->
    receive
        {'ETS-TRANSFER', _, _, _} = Message -> [Message | messages()]
    after 0 -> []
    end.

%% ---- text of terms ----

skip(<<" ", Rest/binary>>) -> skip(Rest);
skip(Rest) -> Rest.

word(Bytes, N) ->
    case Bytes of
        <<_:N/binary, C, _/binary>> when C >= $a, C =< $z; C >= $A, C =< $Z; C >= $0, C =< $9; C =:= $_; C =:= $@ -> word(Bytes, N + 1);
        <<Word:N/binary, Rest/binary>> -> {Word, Rest}
    end.

row(<<" ", Rest/binary>>, Close) -> row(Rest, Close);
row(<<Close, Rest/binary>>, Close) -> {[], Rest};
row(Bytes, Close) ->
    {Term, Rest} = term(Bytes),
    case skip(Rest) of
        <<",", More/binary>> -> {Terms, Last} = row(More, Close), {[Term | Terms], Last};
        <<Close, Last/binary>> -> {[Term], Last}
    end.

term(<<" ", Rest/binary>>) -> term(Rest);
term(<<"{", Rest/binary>>) -> {Terms, Last} = row(Rest, $}), {list_to_tuple(Terms), Last};
term(<<"[", Rest/binary>>) -> row(Rest, $]);
term(<<"'", Rest/binary>>) -> {Text, Last} = quoted(Rest, $', []), {list_to_atom(Text), Last};
term(<<"\"", Rest/binary>>) -> quoted(Rest, $", []);
term(<<"<<", Rest/binary>>) -> {Bytes, <<">", Last/binary>>} = row(Rest, $>), {list_to_binary(Bytes), Last};
term(<<"<0.", Rest/binary>>) -> {Number, <<".0>", Last/binary>>} = digits(Rest, 0), {get({pid, Number}), Last};
term(<<"-", Rest/binary>>) -> {Number, Last} = digits(Rest, 0), {-Number, Last};
term(<<C, _/binary>> = Bytes) when C >= $0, C =< $9 -> digits(Bytes, 0);
term(Bytes) -> {Word, Rest} = word(Bytes, 0), {binary_to_atom(Word), Rest}.

digits(<<C, Rest/binary>>, Value) when C >= $0, C =< $9 -> digits(Rest, Value * 10 + C - $0);
digits(Rest, Value) -> {Value, Rest}.

quoted(<<"\\", C, Rest/binary>>, Quote, Text) -> quoted(Rest, Quote, [C | Text]);
quoted(<<Quote, Rest/binary>>, Quote, Text) -> {lists:reverse(Text), Rest};
quoted(<<C, Rest/binary>>, Quote, Text) -> quoted(Rest, Quote, [C | Text]).

print(Term) when is_integer(Term) -> integer_to_binary(Term);
print(Term) when is_atom(Term) -> print_atom(atom_to_binary(Term));
print(Term) when is_pid(Term) -> ["<0.", integer_to_binary(get({number, Term})), ".0>"];
print(Term) when is_tuple(Term) -> ["{", print_row(tuple_to_list(Term)), "}"];
print(Term) when is_list(Term) -> ["[", print_row(Term), "]"].

print_row([]) -> [];
print_row([Term]) -> print(Term);
print_row([Term | Terms]) -> [print(Term), "," | print_row(Terms)].

print_atom(<<C, _/binary>> = Text) when C >= $a, C =< $z ->
    case word(Text, 0) of
        {Text, <<>>} -> Text;
        _ -> quote(Text)
    end;
print_atom(Text) -> quote(Text).

quote(Text) -> ["'", [case C of $' -> "\\'"; $\\ -> "\\\\"; _ -> C end || <<C>> <= Text], "'"].
