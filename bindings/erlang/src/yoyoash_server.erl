%% @doc Owns the store, and follows its processes.
%%
%% Each process that calls, and each whose pid is in a call, is a process of the store. It ends there when it ends here.
%% Requests are sent at once, and the server keeps who waits for the replies, which come in the same order.
-module(yoyoash_server).
-behaviour(gen_server).
-export([start/2]).
-export([init/1, handle_call/3, handle_cast/2, handle_info/2, terminate/2, format_status/1]).
-include_lib("kernel/include/logger.hrl").
-include("yoyoash_store.hrl").

%% @doc Starts a store under its name; `link' links it to the caller.
-spec start(link | nolink, yoyoash:options()) -> {ok, pid()} | {error, term()}.
start(Link, Options) when is_map(Options) ->
    case yoyoash_options:complete(Options) of
        {ok, Complete} -> start(Link, Complete, yoyoash_backend:find(Complete));
        Error -> Error
    end;
start(_Link, NoMap) ->
    error(badarg, [NoMap]).

start(Link, #{name := Name, grace := Grace}, {ok, Plan}) -> unwrapped(started(Link, Name, {Name, Grace, Plan}));
start(_Link, _Options, Error) -> Error.

started(link, Name, Plan) -> gen_server:start_link({local, Name}, ?MODULE, Plan, []);
started(nolink, Name, Plan) -> gen_server:start({local, Name}, ?MODULE, Plan, []).

%% A store that does not start ends by `shutdown', so that no crash report is written for a mistake of the user's.
unwrapped({error, {shutdown, Reason}}) -> {error, Reason};
unwrapped(Result) -> Result.

%% @private
-spec init({atom(), Grace :: non_neg_integer(), yoyoash_backend:plan()}) -> {ok, #store{}} | {stop, term()}.
init({Name, Grace, Plan}) ->
    process_flag(trap_exit, true),
    case yoyoash_backend:open(Plan) of
        {ok, Backend} ->
            Known = yoyoash_known:new(),
            ok = yoyoash_caller:publish(Name, Known, self(), published(Backend)),
            {ok, #store{name = Name, requests = yoyoash_requests:new(Backend), known = Known, grace = Grace}};
        {error, Reason} ->
            {stop, {shutdown, Reason}}
    end.

published({port, _Connection}) -> port;
published({nif, Inside}) -> {nif, Inside}.

%% @private
-spec handle_call(term(), gen_server:from(), #store{}) ->
    {noreply, #store{}} | {noreply, #store{}, 0} | {reply, term(), #store{}} | {stop, term(), term(), #store{}}.
handle_call(Request, From, S) -> safely(fun() -> called(Request, From, S) end, S).

%% Runs a step of the server. If the program has ended, all who wait get this as their reply, and the server ends by
%% `shutdown': a crash report would have the calls of all who wait.
safely(Do, S) ->
    try
        waits(Do())
    catch
        throw:{stop, Reason} ->
            ?LOG_ERROR("yoyoash: ~ts", [yoyoash_program:format_error(Reason)]),
            {stop, {shutdown, Reason}, told(Reason, S)}
    end.

%% While requests are unsent, the server takes the messages that are there, and sends all requests at once.
waits(S = #store{requests = Requests}) ->
    case yoyoash_requests:is_unsent(Requests) of
        true -> {noreply, S, 0};
        false -> {noreply, S}
    end.

%% Tells all who wait that the store has ended.
told(Reason, S = #store{requests = Requests, processes = Processes}) ->
    Callers = lists:flatmap(fun waits_for/1, yoyoash_requests:waiting(Requests)),
    lists:foreach(
        fun(From) -> gen_server:reply(From, {ended, Reason}) end, Callers ++ yoyoash_processes:waiters(Processes)
    ),
    S.

waits_for({caller, From}) -> [From];
waits_for({made, From, _, _}) -> [From];
waits_for({messages, _, {gift, From}}) -> [From];
waits_for(_Purpose) -> [].

%% @private
-spec handle_cast(term(), #store{}) -> {noreply, #store{}} | {noreply, #store{}, 0} | {stop, term(), #store{}}.
handle_cast(_Message, S) -> waits(S).

%% @private
-spec handle_info(term(), #store{}) -> {noreply, #store{}} | {noreply, #store{}, 0} | {stop, term(), #store{}}.
handle_info(Message, S) -> safely(fun() -> heard(Message, S) end, S).

%% @private
-spec terminate(term(), #store{}) -> ok.
terminate(_Reason, #store{name = Name, requests = Requests}) ->
    _ = yoyoash_caller:retract(Name),
    yoyoash_requests:close(Requests).

%% @private
%% Shortens the state in reports: it has a number for each process that ever called.
-spec format_status(gen_server:format_status()) -> gen_server:format_status().
format_status(Status = #{state := #store{requests = Requests, processes = Processes}}) ->
    Live = length(yoyoash_processes:live(Processes)),
    Status#{state := #{requests => yoyoash_requests:count(Requests), live_processes => Live}};
format_status(Status) -> Status.

%%% What callers ask for

called({ask, N, Bytes}, From, S) when is_integer(N), is_binary(Bytes) ->
    yoyoash_replies:send(2, N, Bytes, {caller, From}, S);
called({enrol, Pid, Keep}, From, S) when is_pid(Pid), is_boolean(Keep) ->
    yoyoash_enrolment:enrol(Pid, Keep, From, S);
called({serve, How, N, Bytes}, From, S) when is_integer(N), is_binary(Bytes) ->
    yoyoash_transfers:serve(How, N, Bytes, From, S);
called(ready, From, S) ->
    gen_server:reply(From, ready),
    S;
called(no_term, From, _S) ->
    gen_server:reply(From, {ended, no_term}),
    throw({stop, no_term});
called(_Unknown, From, S) ->
    gen_server:reply(From, {error, badarg, {general, <<"not a call of the store">>}}),
    S.

%%% What the server hears

heard(timeout, S = #store{requests = Requests}) ->
    S#store{requests = yoyoash_requests:flush(Requests)};
heard({'DOWN', Ref, process, Pid, Reason}, S) -> yoyoash_enrolment:down(Pid, Ref, Reason, S);
heard({grace_over, Pid, Ref}, S) -> yoyoash_enrolment:grace_over(Pid, Ref, S);
heard({exit_again, Pid, N, Heirs}, S) -> yoyoash_enrolment:exit(Pid, N, Heirs, S);
heard({messages, Pid}, S) -> yoyoash_transfers:messages(Pid, none, S);
heard({Port, What}, S = #store{requests = Requests}) when is_port(Port) ->
    case yoyoash_requests:is_part(Port, Requests) of
        true -> heard_program(What, S);
        false -> S
    end;
heard({'EXIT', Part, Reason}, S = #store{requests = Requests}) ->
    case yoyoash_requests:is_part(Part, Requests) of
        true when is_port(Part) -> throw({stop, {program_ended, {closed, Reason}}});
        true -> throw({stop, {part_ended, Part}});
        false -> S
    end;
heard(_Message, S) -> S.

heard_program({data, Data}, S = #store{requests = Requests}) ->
    {Replies, Now} = yoyoash_requests:replies(Data, Requests),
    lists:foldl(fun({Purpose, Body}, Then) -> yoyoash_replies:reply(Purpose, Body, Then) end, S#store{requests = Now}, Replies);
heard_program({exit_status, Status}, _S) -> throw({stop, {program_ended, {status, Status}}});
heard_program(_What, S) -> S.
