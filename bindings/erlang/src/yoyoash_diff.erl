%% @doc Compares the store with `ets': both do one list of calls, and the first difference is shrunk to few calls.
%%
%% A call is `{Name, Args}', or `{Process, Name, Args}' for another process than `main', or `{exit, Process}'. A process has
%% any atom as its name, and starts with its first call. In arguments, `{process, Name}' is the pid of a process, and
%% `{table, Name}' the identifier of the last table that `new(Name, ..)' made. Results have them, too.
%%
%% `docs/erlang-compare.md' says what is compared, and how differences that are known are reported.
-module(yoyoash_diff).
-export([run/1, run/2, random/2, format/1]).
-export_type([call/0, options/0, difference/0]).

-type call() :: {Name :: atom(), [term()]} | {Process :: atom(), Name :: atom(), [term()]} | {exit, Process :: atom()}.
%% `reference' is the module in the place of `ets'. The other options are those of the store.
-type options() :: #{reference => module(), store => yoyoash:options(), print => boolean()}.
%% The least calls, of which the last one differs, what both answered, the reason of the store's refusal, and the section
%% of docs/differences-from-ets.md that may explain it.
-type difference() :: #{
    calls := [call()],
    reference := yoyoash_diff_side:outcome(),
    store := yoyoash_diff_side:outcome(),
    why := string(),
    known := string() | none
}.

%% @equiv run(Calls, #{})
-spec run([call()]) -> same | {different, difference()}.
run(Calls) -> run(Calls, #{}).

%% @doc Does calls by `ets' and by a store of its own. Prints the first difference after it was shrunk, and returns it.
-spec run([call()], options()) -> same | {different, difference()}.
run(Calls, Options) ->
    lists:foreach(fun(Call) -> is_call(Call) orelse error({no_call, Call}) end, Calls),
    case yoyoash:start(maps:merge(#{name => ?MODULE}, maps:get(store, Options, #{}))) of
        {ok, Store} ->
            Sides = {maps:get(reference, Options, ets), Store},
            try printed(shrunk(first(Calls, Sides), Sides), maps:get(print, Options, true))
            after yoyoash:stop(Store)
            end;
        {error, Reason} ->
            error({no_store, yoyoash:format_error(Reason)})
    end.

is_call({exit, Process}) -> is_atom(Process);
is_call({Name, Args}) -> is_atom(Name) andalso is_proper(Args);
is_call({Process, Name, Args}) -> is_atom(Process) andalso is_atom(Name) andalso is_proper(Args);
is_call(_Other) -> false.

is_proper([_ | Tail]) -> is_proper(Tail);
is_proper(Tail) -> Tail =:= [].

%% @doc Returns `N' random calls, the same ones for the same seed. They need the library PropEr, and reach no difference that
%% is known.
-spec random(Seed :: non_neg_integer(), N :: non_neg_integer()) -> [call()].
random(Seed, N) ->
    case code:ensure_loaded(proper_gen) of
        {module, _} -> yoyoash_calls:pick(Seed, N);
        {error, _} -> error({no_proper, "install PropEr: apt-get install erlang-proper, or a dependency of rebar3 or mix"})
    end.

%%% Finding the difference

%% Returns the first difference, with the calls up to it.
first(Calls, {Reference, Store}) ->
    ByReference = yoyoash_diff_side:outcomes(Calls, {module, Reference}),
    ByStore = yoyoash_diff_side:outcomes(Calls, {store, Store}),
    Outcomes = lists:zip3(lists:seq(1, length(Calls)), ByReference, ByStore),
    case lists:dropwhile(fun({_, {A, _}, {B, _}}) -> A =:= B end, Outcomes) of
        [] -> same;
        [{N, {A, _}, {B, Why}} | _] -> difference(lists:sublist(Calls, N), A, B, Why)
    end.

difference(Calls, A, B, Why) ->
    Known = yoyoash_diff_known:section(Calls, A, B, Why),
    {different, #{calls => Calls, reference => A, store => B, why => Why, known => Known}}.

%%% Shrinking

shrunk(same, _Sides) -> same;
shrunk({different, Difference = #{calls := Calls}}, Sides) ->
    Fewer = without_parts(max(1, length(Calls) div 2), Difference, Sides),
    case simpler(Fewer, Sides) of
        Fewer -> {different, Fewer};
        Simpler -> shrunk({different, Simpler}, Sides)
    end.

%% Leaves out parts of a size, then of half the size, as long as the difference stays.
without_parts(0, Difference, _Sides) -> Difference;
without_parts(Size, Difference = #{calls := Calls}, Sides) ->
    Now = #{calls := Left} = without(Size, 0, Difference, Sides),
    case Size of
        1 when length(Left) < length(Calls) -> without_parts(1, Now, Sides);
        _ -> without_parts(Size div 2, Now, Sides)
    end.

without(Size, At, Difference = #{calls := Calls}, Sides) when At < length(Calls) ->
    {Before, Rest} = lists:split(At, Calls),
    case still(Before ++ lists:nthtail(min(Size, length(Rest)), Rest), Difference, Sides) of
        none -> without(Size, At + Size, Difference, Sides);
        Found -> without(Size, At, Found, Sides)
    end;
without(_Size, _At, Difference, _Sides) -> Difference.

%% Takes simpler arguments for one call after the other, as long as the difference stays.
simpler(Difference = #{calls := Calls}, Sides) ->
    lists:foldl(fun(N, Now) -> simpler(N, Now, Sides) end, Difference, lists:seq(1, length(Calls))).

simpler(N, Difference = #{calls := Calls}, Sides) when N =< length(Calls) ->
    {Before, [Call | After]} = lists:split(N - 1, Calls),
    Tried = [still(Before ++ [Simple | After], Difference, Sides) || Simple <- yoyoash_diff_simple:calls(Call)],
    case [Found || Found <- Tried, Found =/= none] of
        [] -> Difference;
        [Found | _] -> simpler(N, Found, Sides)
    end;
simpler(_N, Difference, _Sides) -> Difference.

%% Returns the difference that these calls show, if it is of the same kind: the same call differs, and as much is known.
still([], _Difference, _Sides) -> none;
still(Calls, #{calls := Old, known := Known}, Sides) ->
    Kind = name(lists:last(Old)),
    case first(Calls, Sides) of
        {different, Found = #{calls := Now, known := Known}} ->
            case name(lists:last(Now)) of
                Kind -> Found;
                _ -> none
            end;
        _ -> none
    end.

name({exit, Process}) when is_atom(Process) -> exit;
name({Name, _}) -> Name;
name({_, Name, _}) -> Name.

%%% Printing

printed(same, _Print) -> same;
printed({different, Difference}, Print) ->
    _ = Print andalso io:put_chars(format(Difference)),
    {different, Difference}.

%% @doc Returns a difference as text.
-spec format(difference()) -> unicode:chardata().
format(#{calls := Calls, reference := ByReference, store := ByStore, why := Why, known := Known}) ->
    Numbered = lists:zip(lists:seq(1, length(Calls)), Calls),
    [
        io_lib:format("The last of ~b calls differs:~n", [length(Calls)]),
        [io_lib:format("  ~b  ~0tp~n", [N, Call]) || {N, Call} <- Numbered],
        io_lib:format("ets:     ~0tp~nyoyoash: ~0tp~s~n", [ByReference, ByStore, because(Why)]),
        [io_lib:format("It may be known: docs/differences-from-ets.md, '~s'~n", [Known]) || Known =/= none]
    ].

because("") -> "";
because(Why) -> [", ", Why].
