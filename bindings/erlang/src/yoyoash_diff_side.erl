%% @doc Does a list of calls by one side of a comparison, each in the process that it names, and returns what came of each.
%%
%% The processes of a side are its own, and end with the list, so that no table stays.
-module(yoyoash_diff_side).
-export([outcomes/2]).
-export_type([side/0, outcome/0]).

-type side() :: {module, module()} | {store, yoyoash:store()}.
%% The value or the error, and the messages of processes that got tables meanwhile.
-type outcome() :: {ok | error, term()} | {ok | error, term(), Messages :: [{Process :: atom(), term()}]}.

-record(run, {
    side :: side(),
    %% The processes that have not ended, and the names of all.
    pids = #{} :: #{Process :: atom() => pid()},
    processes = #{} :: #{pid() => Process :: atom()},
    %% The last table of each name, and the names of all.
    ids = #{} :: #{Table :: atom() => term()},
    tables = #{} :: #{Id :: term() => Table :: atom()}
}).

%% @doc Returns the outcome of each call, with the reason that a store gave for a refusal.
-spec outcomes([yoyoash_diff:call()], side()) -> [{outcome(), Why :: string()}].
outcomes(Calls, Side) ->
    {Outcomes, Run} = lists:mapfoldl(fun outcome/2, #run{side = Side}, Calls),
    lists:foreach(fun(Pid) -> ended(Pid, Side) end, maps:values(Run#run.pids)),
    Outcomes.

outcome({exit, Process}, R = #run{side = Side, pids = Pids}) when is_atom(Process) ->
    ok = ended(maps:get(Process, Pids, none), Side),
    Now = R#run{pids = maps:remove(Process, Pids)},
    {with_messages({ok, exit}, "", Now), Now};
outcome({Name, Args}, R) ->
    outcome({main, Name, Args}, R);
outcome({Process, Name, Args}, R) ->
    Now = #run{side = Side, pids = #{Process := Pid}} = started(Process, lists:foldl(fun started/2, R, named(Args, []))),
    {Is, Value, Why} = by(Pid, fun() -> call(Side, Name, given(Args, Now)) end),
    Then = made({Is, Name, Args}, Value, Pid, Now),
    {with_messages({Is, compared(Name, shown(Value, Then))}, Why, Then), Then}.

%% Returns the processes that are named in a term.
named({process, Process}, Named) when is_atom(Process) -> [Process | Named];
named(Tuple, Named) when is_tuple(Tuple) -> named(tuple_to_list(Tuple), Named);
named([Head | Tail], Named) -> named(Tail, named(Head, Named));
named(_Other, Named) -> Named.

started(Process, R = #run{pids = Pids}) when is_map_key(Process, Pids) -> R;
started(Process, R = #run{pids = Pids, processes = Processes}) ->
    Pid = spawn(fun loop/0),
    R#run{pids = Pids#{Process => Pid}, processes = Processes#{Pid => Process}}.

%%% The processes

loop() ->
    receive
        {do, From, Ref, Do} -> From ! {Ref, Do()}, loop();
        stop -> ok
    end.

by(Pid, Do) ->
    Ref = make_ref(),
    Pid ! {do, self(), Ref, Do},
    receive {Ref, Result} -> Result end.

%% Ends a process. It ends in the store shortly after it has ended here.
ended(none, _Side) -> ok;
ended(Pid, {module, _}) -> stopped(Pid);
ended(Pid, {store, Store}) ->
    ok = stopped(Pid),
    until_gone(Pid, Store).

stopped(Pid) ->
    Ref = monitor(process, Pid),
    Pid ! stop,
    receive {'DOWN', Ref, process, Pid, _} -> ok end.

%% Waits until the store refuses a call of a process, and until the server has delivered the messages about its tables: the
%% server does a call of `setopts' after that.
until_gone(Pid, Store) ->
    try yoyoash:call_as(Store, Pid, whereis, [none]) of
        _ ->
            erlang:yield(),
            until_gone(Pid, Store)
    catch
        error:_ -> try yoyoash:call(Store, setopts, [none, []]) of true -> ok catch error:_ -> ok end
    end.

%%% Calls

call(Side, Name, Args) ->
    try {ok, apply_to(Side, Name, Args), ""}
    catch error:Reason:Stack -> {error, Reason, reason(Side, Reason, Stack)}
    end.

apply_to({module, Module}, Name, Args) -> apply(Module, Name, Args);
apply_to({store, Store}, Name, Args) -> yoyoash:call(Store, Name, Args).

reason({module, _}, _Reason, _Stack) -> "";
reason({store, _}, Reason, Stack) ->
    lists:append([unicode:characters_to_list(Text) || Text <- maps:values(yoyoash_errors:format_error(Reason, Stack))]).

%% Remembers a table that was made.
made({ok, new, [Name, _]}, Table, Pid, R = #run{side = Side, ids = Ids, tables = Tables}) when is_atom(Name) ->
    Id = case Table of
        Name -> whereis(Name, Pid, Side);
        Ref -> Ref
    end,
    R#run{ids = Ids#{Name => Id}, tables = Tables#{Id => Name}};
made(_Other, _Value, _Pid, R) -> R.

%% Returns the reference of a named table, or its name if the module has no such function.
whereis(Name, Pid, Side) ->
    case by(Pid, fun() -> call(Side, whereis, [Name]) end) of
        {ok, Ref, _} -> Ref;
        {error, undef, _} -> Name
    end.

%% Puts in the pids and tables of this side.
given({process, Process}, #run{pids = Pids}) when is_map_key(Process, Pids) -> maps:get(Process, Pids);
given({table, Name}, #run{ids = Ids}) when is_atom(Name) -> maps:get(Name, Ids, Name);
given(Tuple, R) when is_tuple(Tuple) -> list_to_tuple(given(tuple_to_list(Tuple), R));
given([Head | Tail], R) -> [given(Head, R) | given(Tail, R)];
given(Other, _R) -> Other.

%% Puts in the names of processes and tables.
shown(Pid, #run{processes = Processes}) when is_map_key(Pid, Processes) -> {process, maps:get(Pid, Processes)};
shown(Id, #run{tables = Tables}) when is_map_key(Id, Tables) -> {table, maps:get(Id, Tables)};
shown(Tuple, R) when is_tuple(Tuple) -> list_to_tuple(shown(tuple_to_list(Tuple), R));
shown([Head | Tail], R) -> [shown(Head, R) | shown(Tail, R)];
shown(Other, _R) -> Other.

%% Returns what is compared of a value: the order of keys is free.
compared(Name, List) when is_list(List), Name =:= tab2list orelse Name =:= match -> lists:sort(List);
compared(Name, List) when is_list(List), Name =:= match_object orelse Name =:= select -> lists:sort(List);
compared(Name, Key) when Key =/= '$end_of_table', Name =:= first orelse Name =:= first_lookup -> 'a key';
compared(Name, Key) when Name =:= next andalso not is_tuple(Key) orelse Name =:= next_lookup -> 'a key or the end';
compared(_Name, Value) -> Value.

%% Adds the messages that processes have got.
with_messages({Is, Value}, Why, R = #run{pids = Pids}) ->
    Got = [{Process, shown(Message, R)} || {Process, Pid} <- maps:to_list(Pids), Message <- by(Pid, fun transfers/0)],
    case Got of
        [] -> {{Is, Value}, Why};
        _ -> {{Is, Value, lists:sort(Got)}, Why}
    end.

transfers() ->
    receive
        {'ETS-TRANSFER', _, _, _} = Message -> [Message | transfers()]
    after 0 -> []
    end.
