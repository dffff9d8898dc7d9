%% @doc Makes processes of Erlang processes of the store, and ends them there when they have ended here.
%%
%% A process whose connection is lost may be alive. If the store has a grace period, such a process keeps its tables for
%% that long. It keeps them for good if its node is connected again at the end of the period.
-module(yoyoash_enrolment).
-export([enrol/4, spawned/3, down/4, grace_over/3, exit/4, exited/5]).
-include("yoyoash_store.hrl").

%% @doc Spawns a new pid in the store, under the next number. If the store refuses, the pid stays unknown.
-spec enrol(pid(), Keep :: boolean(), gen_server:from(), #store{}) -> #store{}.
enrol(Pid, Keep, From, S = #store{known = Known, processes = Processes}) ->
    case number(Pid, Keep, Known) of
        none ->
            case yoyoash_processes:enrol(Pid, Keep, From, Processes) of
                {spawn, N, Now} -> yoyoash_replies:send(0, N, <<>>, {spawned, Pid}, S#store{processes = Now});
                {waits, Now} -> S#store{processes = Now}
            end;
        _ ->
            gen_server:reply(From, true),
            S
    end.

number(Pid, true, Known) -> yoyoash_known:kept(Pid, Known);
number(Pid, false, Known) -> yoyoash_known:number(Pid, Known).

%% @doc Replies to those who wait for a process.
-spec spawned(pid(), Reply :: binary(), #store{}) -> #store{}.
spawned(Pid, <<0, _/binary>>, S = #store{known = Known, processes = Processes}) ->
    {N, Keep, Froms, Now} = yoyoash_processes:spawned(Pid, Processes),
    true = yoyoash_known:add(Pid, N, Keep, Known),
    lists:foreach(fun(From) -> gen_server:reply(From, true) end, Froms),
    S#store{processes = Now};
spawned(Pid, Refusal, S = #store{processes = Processes}) ->
    {Froms, Now} = yoyoash_processes:refused(Pid, Processes),
    lists:foreach(fun(From) -> gen_server:reply(From, Refusal) end, Froms),
    S#store{processes = Now}.

%% @doc Ends a process whose monitor says that it has ended, or waits for the grace period if its connection was lost.
-spec down(pid(), reference(), Reason :: term(), #store{}) -> #store{}.
down(Pid, Ref, noconnection, S = #store{grace = Grace}) when Grace > 0 ->
    _ = erlang:send_after(Grace, self(), {grace_over, Pid, Ref}),
    S;
down(Pid, Ref, Reason, S) -> ended(Pid, Ref, Reason, S).

ended(Pid, Ref, Reason, S = #store{known = Known, processes = Processes}) ->
    case yoyoash_processes:ended(Pid, Ref, Processes) of
        {ended, N, Left} ->
            _ = Reason =:= noconnection andalso yoyoash_known:lose(Pid, Known),
            {Heirs, Now} = yoyoash_processes:take_heirs(N, Left),
            exit(Pid, N, Heirs, S#store{processes = Now});
        not_live ->
            S
    end.

%% @doc Monitors a process again if its node is connected, or ends it. A process that ended meanwhile ends by its new monitor.
-spec grace_over(pid(), reference(), #store{}) -> #store{}.
grace_over(Pid, Ref, S = #store{processes = Processes}) ->
    case yoyoash_processes:is_monitor(Pid, Ref, Processes) andalso lists:member(node(Pid), nodes(connected)) of
        true -> S#store{processes = yoyoash_processes:monitor_again(Pid, Processes)};
        false -> ended(Pid, Ref, noconnection, S)
    end.

%% @doc Ends a process in the store, and reads the messages of the heirs that its tables may have. After that it is forgotten.
-spec exit(pid(), non_neg_integer(), Heirs :: [pid()], #store{}) -> #store{}.
exit(Pid, N, Heirs, S) ->
    asked(Heirs, {forget, Pid, N}, yoyoash_replies:send(1, N, <<>>, {ended, Pid, N, Heirs}, S)).

asked([], _After, S) -> S;
asked([Heir], After, S) -> yoyoash_transfers:messages(Heir, After, S);
asked([Heir | Heirs], After, S) -> asked(Heirs, After, yoyoash_transfers:messages(Heir, none, S)).

%% @doc Has ended a process in the store, or tries again. A call of its own that was made shortly before may have named more
%% heirs.
-spec exited(Reply :: binary(), pid(), non_neg_integer(), Asked :: [pid()], #store{}) -> #store{}.
exited(<<4, _/binary>>, Pid, N, Asked, S = #store{known = Known}) ->
    ok = yoyoash_known:keep(N, Known),
    yoyoash_replies:again({exit_again, Pid, N, Asked}, S);
exited(_Reply, Pid, N, Asked, S = #store{known = Known, processes = Processes}) ->
    case {Asked, yoyoash_processes:take_heirs(N, Processes)} of
        {[], {[], Left}} ->
            yoyoash_transfers:done({forget, Pid, N}, S#store{processes = Left});
        {_, {[], Left}} ->
            S#store{processes = Left};
        {_, {Late, Left}} ->
            ok = yoyoash_known:keep(N, Known),
            asked(Late, none, S#store{processes = Left})
    end.
