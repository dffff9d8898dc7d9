%% @doc Lets the long calls of one store take turns, so that one store holds one dirty scheduler at most.
%%
%% The lock of a store makes callers wait. If they waited inside the NIF, four of them would take all dirty schedulers of
%% a small machine from the calls of other stores. A caller that finds the lock taken waits here, in its order.
-module(yoyoash_turns).
-behaviour(gen_server).
-export([start_link/0, stop/1, is_free/1, run/2]).
-export([init/1, handle_call/3, handle_cast/2, handle_info/2]).
-export_type([turns/0]).

%% The process, and the number of callers that wait or have their turn.
-type turns() :: {pid(), atomics:atomics_ref()}.

-record(state, {
    count :: atomics:atomics_ref(),
    %% The caller that has its turn, with its monitor.
    turn = none :: none | {pid(), reference()},
    waiting = queue:new() :: queue:queue(gen_server:from())
}).

%% @doc Starts the turns of a store, which end with the caller.
-spec start_link() -> {ok, turns()}.
start_link() ->
    Count = atomics:new(1, []),
    {ok, Pid} = gen_server:start_link(?MODULE, Count, []),
    {ok, {Pid, Count}}.

%% @doc Ends the turns.
-spec stop(turns()) -> ok.
stop({Pid, _Count}) ->
    unlink(Pid),
    exit(Pid, shutdown),
    ok.

%% @doc Says whether nobody waits or has its turn.
-spec is_free(turns()) -> boolean().
is_free({_Pid, Count}) -> atomics:get(Count, 1) =:= 0.

%% @doc Waits for the caller's turn, and runs a function in it.
-spec run(turns(), fun(() -> Result)) -> Result.
run({Pid, _Count}, Do) ->
    ok = gen_server:call(Pid, enter, infinity),
    try Do() after gen_server:cast(Pid, {leave, self()}) end.

%% @private
-spec init(atomics:atomics_ref()) -> {ok, #state{}}.
init(Count) -> {ok, #state{count = Count}}.

%% @private
-spec handle_call(enter, gen_server:from(), #state{}) -> {noreply, #state{}}.
handle_call(enter, From, S = #state{count = Count, turn = Turn, waiting = Waiting}) ->
    ok = atomics:add(Count, 1, 1),
    case Turn of
        none -> {noreply, admit(From, S)};
        _ -> {noreply, S#state{waiting = queue:in(From, Waiting)}}
    end.

%% @private
-spec handle_cast({leave, pid()}, #state{}) -> {noreply, #state{}}.
handle_cast({leave, Pid}, S = #state{turn = {Pid, Ref}}) ->
    true = demonitor(Ref, [flush]),
    {noreply, next(S)};
handle_cast(_Other, S) ->
    {noreply, S}.

%% @private
%% A caller that ends gives up its turn.
-spec handle_info(term(), #state{}) -> {noreply, #state{}}.
handle_info({'DOWN', Ref, process, Pid, _}, S = #state{turn = {Pid, Ref}}) -> {noreply, next(S)};
handle_info(_Other, S) -> {noreply, S}.

%% Ends the turn of a caller, and begins that of the next one.
next(S = #state{count = Count, waiting = Waiting}) ->
    ok = atomics:sub(Count, 1, 1),
    case queue:out(Waiting) of
        {{value, From}, Left} -> admit(From, S#state{waiting = Left});
        {empty, _} -> S#state{turn = none}
    end.

admit(From = {Pid, _}, S) ->
    Ref = monitor(process, Pid),
    gen_server:reply(From, ok),
    S#state{turn = {Pid, Ref}}.
