%% @doc Says which section of docs/differences-from-ets.md may explain a difference.
-module(yoyoash_diff_known).
-export([section/4]).

-define(TERMS, "Terms and limits").
-define(FUNCTIONS, "The 70 functions").
-define(INSERTION, "Insertion").
-define(COUNTERS, "Counters and elements").
-define(SPECIFICATIONS, "Match specifications").
-define(FIXED, "Fixed tables and traversals").
-define(OWNERS, "Owners, heirs and info").

%% @doc Returns the title of the section, from the calls up to the difference, what both answered, and the store's reason.
-spec section([yoyoash_diff:call()], Outcome, Outcome, Why :: string()) -> string() | none when
    Outcome :: yoyoash_diff_side:outcome().
section(Calls, ByEts, ByStore, Why) ->
    {Name, Args} = call(lists:last(Calls)),
    Rules = [
        fun() -> functions(ByEts, ByStore) end,
        fun() -> terms(Name, Args, ByEts, ByStore, Why) end,
        fun() -> of_name(Name, Args, ByEts, ByStore) end,
        fun() -> insertion(Name, ByEts, ByStore, [call(Call) || Call <- Calls]) end
    ],
    first(Rules).

call({exit, Process}) when is_atom(Process) -> {exit, []};
call({Name, Args}) -> {Name, Args};
call({_Process, Name, Args}) -> {Name, Args}.

first([]) -> none;
first([Rule | Rules]) ->
    case Rule() of
        none -> first(Rules);
        Section -> Section
    end.

functions({error, undef}, _) -> ?FUNCTIONS;
functions(_, {error, undef}) -> ?FUNCTIONS;
functions(_, _) -> none.

%% The store refuses some terms, types of tables and options, and has limits.
terms(_, _, ByEts, {error, system_limit}, _) when element(1, ByEts) =:= ok -> ?TERMS;
terms(new, [_, Options], {ok, _}, {error, badarg}, _) when is_list(Options) ->
    case lists:member(ordered_set, Options) orelse lists:keymember(keypos, 1, Options) of
        true -> ?TERMS;
        false -> none
    end;
terms(_, Args, ByEts, {error, badarg}, Why) when element(1, ByEts) =:= ok ->
    Texts = ["not supported", "out of range", "$end_of_table"],
    case holds('$end_of_table', Args) orelse lists:any(fun(Text) -> string:find(Why, Text) =/= nomatch end, Texts) of
        true -> ?TERMS;
        false -> none
    end;
terms(_, _, _, _, _) -> none.

of_name(Name, _, {ok, _}, {error, badarg}) when Name =:= match; Name =:= match_object; Name =:= match_delete -> ?SPECIFICATIONS;
of_name(Name, _, {ok, _}, {error, badarg}) when Name =:= select; Name =:= select_count; Name =:= select_delete -> ?SPECIFICATIONS;
of_name(select, _, {ok, Found}, {ok, Others}) when length(Found) =:= length(Others) ->
    case lists:member('EXIT', Others) of
        true -> ?SPECIFICATIONS;
        false -> none
    end;
of_name(update_element, _, {ok, false}, {error, badarg}) -> ?COUNTERS;
of_name(update_counter, [_, _, _, Default], _, {error, badarg}) when is_tuple(Default) -> ?COUNTERS;
of_name(info, [_, heir], {ok, none}, {ok, {process, _}}) -> ?OWNERS;
of_name(info, _, {ok, _}, {error, badarg}) -> ?OWNERS;
of_name(info, [_, size], {ok, Size}, {ok, _}) when Size > 1 bsl 60 -> ?FIXED;
of_name(setopts, _, {error, badarg}, {ok, true}) -> ?OWNERS;
of_name(setopts, _, {ok, true}, {error, badarg}) -> ?OWNERS;
of_name(next, _, {ok, _}, {error, badarg}) -> ?FIXED;
of_name(_, _, _, _) -> none.

%% A list goes into a bag from its end in `ets'.
insertion(Name, {ok, [_, _ | _] = Found}, {ok, Others}, Calls) when Name =:= lookup; Name =:= take; Name =:= lookup_element ->
    Lists = [Objects || {Insert, [_, [_, _ | _] = Objects]} <- Calls, Insert =:= insert orelse Insert =:= insert_new],
    case Lists =/= [] andalso is_list(Others) andalso lists:sort(Found) =:= lists:sort(Others) of
        true -> ?INSERTION;
        false -> none
    end;
insertion(_, _, _, _) -> none.

holds(Term, Term) -> true;
holds(Term, Tuple) when is_tuple(Tuple) -> holds(Term, tuple_to_list(Tuple));
holds(Term, [Head | Tail]) -> holds(Term, Head) orelse holds(Term, Tail);
holds(_, _) -> false.
