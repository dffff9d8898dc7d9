%% @doc Does the calls of a process: writes them, passes them on, and reads the replies.
%%
%% The callers write and read terms, so that they do it at the same time. Over the NIF most calls need no other process.
-module(yoyoash_caller).
-export([call/4, publish/4, retract/1]).
-export_type([result/0, backend/0]).

-type result() :: {ok, term()} | {error, badarg | system_limit | enomem, yoyoash_errors:cause()}.
-type backend() :: port | {nif, yoyoash_inside:inside()}.

-define(NONE, {error, badarg, {general, <<"no store is running: start one by yoyoash:start_link()">>}}).
-define(NO_PROCESS, {error, badarg, {general, <<"no such process (or it has exited)">>}}).
-define(ENDED, {error, badarg, {general, <<"the store has ended: start it again">>}}).
%% The longest call that the program reads: a packet without its kind and its process.
-define(LONGEST, 16_777_211).
%% Over the NIF, a longer call is done by a dirty scheduler.
-define(SHORT, 4_096).

%% @doc Lets all processes call a store by its name.
-spec publish(atom(), yoyoash_known:known(), pid(), backend()) -> ok.
publish(Name, Known, Server, Backend) -> persistent_term:put({?MODULE, Name}, {Known, Server, Backend}).

%% @doc Ends what {@link publish/4} began.
-spec retract(atom()) -> boolean().
retract(Name) -> persistent_term:erase({?MODULE, Name}).

%% @doc Does a call for a process, in the store with a name or a pid. A store that does not run has no tables, so each call
%% is a `badarg'.
-spec call(atom() | pid(), pid(), atom(), [term()]) -> result().
call(Server, Pid, Name, Args) when is_pid(Server) ->
    case node(Server) =:= node() andalso process_info(Server, registered_name) of
        {registered_name, In} -> call(In, Pid, Name, Args);
        _ -> ?NONE
    end;
call(In, Pid, Name, Args) ->
    case persistent_term:get({?MODULE, In}, none) of
        none -> next_store(In, Pid, Name, Args, ?NONE);
        Store -> called(In, Pid, Name, Args, Store)
    end.

%% Waits for a store that is being started, and calls it.
next_store(In, Pid, Name, Args, Otherwise) ->
    case whereis(In) of
        undefined ->
            Otherwise;
        Server ->
            try gen_server:call(Server, ready, infinity) of
                ready -> call(In, Pid, Name, Args)
            catch
                exit:{_Reason, {gen_server, call, _}} -> Otherwise
            end
    end.

%% The numbers end with the server.
called(In, Pid, Name, Args, Store = {Known, _, _}) ->
    try yoyoash_known:number(Pid, Known) of
        N -> guarded(N, Pid, Name, Args, Store)
    catch
        error:badarg -> next_store(In, Pid, Name, Args, ?ENDED)
    end.

guarded(N, Pid, Name, Args, Store = {Known, _, _}) ->
    try
        numbered(N, Pid, Name, Args, Store)
    catch
        exit:{_Reason, {gen_server, call, _}} ->
            ?ENDED;
        error:badarg:Stack ->
            case ets:info(Known, id) of
                undefined -> ?ENDED;
                _ -> erlang:raise(error, badarg, Stack)
            end
    end.

%% First the processes in a call become processes of the store. One that has ended here does not become one again.
numbered(none, Pid, Name, Args, Store = {Known, _, _}) ->
    case may_live(Pid) andalso enrol_all([Pid], false, Store) of
        ok -> numbered(yoyoash_known:number(Pid, Known), Pid, Name, Args, Store);
        false -> ?NO_PROCESS;
        Refusal -> result(Refusal, [], Store)
    end;
numbered(N, Pid, Name, Args, Store) ->
    case yoyoash_term:is_plain(Args) of
        true -> ask(N, Pid, Name, Args, yoyoash_term:plain(Name, Args), Store);
        false -> translated(N, Pid, Name, Args, keeps(Name), Store)
    end.

may_live(Pid) -> node(Pid) =/= node() orelse is_process_alive(Pid).

%% Writes a call that has pids or references. A pid that was forgotten after it was enrolled is kept the second time.
translated(N, Pid, Name, Args, Keep, Store = {Known, _, _}) ->
    case enrol_all(yoyoash_term:pids(Args), Keep, Store) of
        ok ->
            try yoyoash_term:write(Name, Args, Known) of
                {ok, Bytes} -> ask(N, Pid, Name, Args, Bytes, Store);
                {error, Cause} -> {error, badarg, Cause}
            catch
                throw:forgotten -> translated(N, Pid, Name, Args, true, Store)
            end;
        Refusal ->
            result(Refusal, [], Store)
    end.

%% Makes pids processes of the store. If the call may leave them in the store, the pids are kept for their numbers.
enrol_all([], _Keep, _Store) -> ok;
enrol_all([Pid | Pids], Keep, Store = {Known, Server, _}) ->
    case is_integer(number(Pid, Keep, Known)) orelse gen_server:call(Server, {enrol, Pid, Keep}, infinity) of
        true -> enrol_all(Pids, Keep, Store);
        Refusal -> Refusal
    end.

number(Pid, true, Known) -> yoyoash_known:kept(Pid, Known);
number(Pid, false, Known) -> yoyoash_known:number(Pid, Known).

%% Says which calls may leave a pid of their arguments in an object, in a reply, or as an heir.
keeps(Name) ->
    not lists:member(Name, [
        delete, delete_object, first, first_lookup, info, lookup, match_delete, member, next, next_lookup, select_count,
        select_delete, take
    ]).

%% Has a call done. If the number of the process was forgotten meanwhile, the call was not made and is tried again.
ask(N, Pid, Name, Args, Bytes, Store = {Known, _, _}) ->
    case reply(N, Name, Args, Bytes, Store) of
        <<3, _/binary>> = Refusal ->
            case yoyoash_known:number(Pid, Known) of
                N -> result(Refusal, Args, Store);
                Other -> numbered(Other, Pid, Name, Args, Store)
            end;
        Reply ->
            told(Reply, N, Pid, Name, Args, Bytes, Store)
    end.

%% Asks again for an owner that has ended since it was told.
told(Reply, N, Pid, info, Args, Bytes, Store) ->
    try result(Reply, Args, Store)
    catch throw:forgotten -> ask(N, Pid, info, Args, Bytes, Store)
    end;
told(Reply, _N, _Pid, _Name, Args, _Bytes, Store) ->
    try result(Reply, Args, Store)
    catch throw:forgotten -> no_term(Store)
    end.

%% Has a call done, and returns the status and the rest of the reply.
reply(_N, _Name, _Args, Bytes, {_, _, port}) when byte_size(Bytes) > ?LONGEST -> too_long;
reply(N, Name, Args, Bytes, {_, Server, Backend}) ->
    case {way(Name, Args), Backend} of
        {{served, How}, _} -> gen_server:call(Server, {serve, How, N, Bytes}, infinity);
        {_, port} -> gen_server:call(Server, {ask, N, Bytes}, infinity);
        {short, {nif, Inside}} when byte_size(Bytes) =< ?SHORT -> yoyoash_inside:ask(Inside, 2, N, Bytes);
        {_, {nif, Inside}} -> yoyoash_inside:ask_long(Inside, 2, N, Bytes)
    end.

%% Says which calls the server follows, since they name heirs or give a table, and which may take as long as the table is.
way(new, [_, Options]) -> {served, {heirs, heirs(Options)}};
way(setopts, [_, Options]) -> {served, {heirs, heirs(Options)}};
way(give_away, [Table, To, _]) -> {served, {gift, To, Table}};
way(delete, [_]) -> long;
way(delete_all_objects, _) -> long;
way(match, _) -> long;
way(match_delete, _) -> long;
way(match_object, _) -> long;
way(select, _) -> long;
way(select_count, _) -> long;
way(safe_fixtable, _) -> long;
way(select_delete, _) -> long;
way(tab2list, _) -> long;
way(_, _) -> short.

heirs(Options) when is_list(Options) -> [Pid || {heir, Pid, _} <- Options, is_pid(Pid)];
heirs(Option) -> heirs([Option]).

result(<<0, Bytes/binary>>, _Args, Store) -> read(Bytes, Store);
result(<<1, Why/binary>>, _, _) -> {error, badarg, yoyoash_errors:cause(Why)};
result(<<2, Why/binary>>, _, _) -> {error, system_limit, yoyoash_errors:cause(Why)};
result(<<3, Why/binary>>, _, _) -> {error, badarg, yoyoash_errors:cause(Why)};
result(<<4, Why/binary>>, _, _) -> {error, enomem, yoyoash_errors:cause(Why)};
result(<<5, Why/binary>>, Args, _) -> {error, badarg, unread(yoyoash_term:first_bad_atom(Args), Why)};
result(<<6, _/binary>>, _, _) -> ?ENDED;
result(<<7, _/binary>>, _, _) ->
    {error, enomem, {general, <<"the call was made, but there was no memory for its reply">>}};
result(too_long, _, _) ->
    {error, system_limit, {general, <<"the call has over 16,777,211 bytes, the most that a packet to the program holds">>}};
result({ended, Reason}, _, _) ->
    {error, badarg, {general, unicode:characters_to_binary(yoyoash_program:format_error(Reason))}}.

unread(none, Why) -> yoyoash_errors:cause(Why);
unread(Number, _) -> {argument, Number, <<"atoms with characters past printable ASCII are not supported">>}.

read(Bytes, Store = {Known, _, _}) ->
    try
        {ok, yoyoash_term:read(Bytes, Known)}
    catch
        error:_ -> no_term(Store)
    end.

%% A reply that is no term is not from the store, so it ends the store.
no_term(Store = {_, Server, _}) -> result(gen_server:call(Server, no_term, infinity), [], Store).
