%% Helpers of the tests.
-module(yoyoash_help).
-export([over_stores/2, on_store/2, backends/0, started/1]).
-export([shown/1, contains/2, eventually/1, until_stopped/0, quietly/1, logged/1, log/2, in_peer/3, in_file/3]).
-export([requests/0, live/0, kept_processes/0, memory/0]).

-type test() :: {Name :: string(), fun(() -> ok) | fun((port | nif) -> ok)}.

%%% Stores

%% Returns tests for EUnit, each with a store of its own, over each backend. Some are of one backend only.
-spec over_stores([test()], fun((port | nif) -> [test()])) -> [term()].
over_stores(Tests, TestsOf) -> [on_store(Backend, Tests ++ TestsOf(Backend)) || Backend <- backends()].

%% Returns tests for EUnit, each with a store of its own.
-spec on_store(port | nif, [test()]) -> term().
on_store(Backend, Tests) ->
    {foreach, fun() -> started(Backend) end, fun stopped/1, [each(Test, Backend) || Test <- Tests]}.

each({Name, Test}, Backend) ->
    Run = fun() -> ok = case is_function(Test, 0) of true -> Test(); false -> Test(Backend) end end,
    fun(_) -> {lists:concat([Name, ", ", Backend]), {timeout, 300, Run}} end.

%% Starts the store of a test.
-spec started(port | nif) -> pid().
started(Backend) ->
    {ok, Pid} = yoyoash:start(#{backend => Backend}),
    Pid.

stopped(Pid) ->
    case is_process_alive(Pid) of
        true -> yoyoash:stop();
        false -> ok
    end.

%% Returns the backends that can be tested here.
-spec backends() -> [port | nif].
backends() -> [port | [nif || yoyoash_nif:is_loaded()]].

%% Returns the reason of an error and what the shell shows of it.
-spec shown(fun(() -> term())) -> {term(), term()}.
shown(Call) ->
    try Call() of
        Value -> {no_error, Value}
    catch
        error:Reason:Stack -> {Reason, lists:flatten(erl_error:format_exception(error, Reason, Stack))}
    end.

-spec contains(string(), string()) -> ok.
contains(Text, Part) ->
    case string:find(Text, Part) of
        nomatch -> error({no, Part, in, Text});
        _ -> ok
    end.

%% Waits until a function is true, ten seconds at most.
-spec eventually(fun(() -> boolean())) -> ok.
eventually(Is) -> eventually(Is, 1_000).

eventually(_Is, 0) -> error(never);
eventually(Is, Left) ->
    case Is() of
        true -> ok;
        false -> timer:sleep(10), eventually(Is, Left - 1)
    end.

%% Waits until this process is stopped.
-spec until_stopped() -> ok.
until_stopped() ->
    receive
        stop -> ok;
        _Other -> until_stopped()
    end.

%% Runs what ends processes on purpose, without reports of it.
-spec quietly(fun(() -> Result)) -> Result.
quietly(Do) ->
    #{level := Level} = logger:get_primary_config(),
    ok = logger:set_primary_config(level, none),
    try Do() after logger:set_primary_config(level, Level) end.

-spec in_file(iodata(), non_neg_integer(), fun((file:filename()) -> Result)) -> Result.
in_file(Text, Mode, Do) ->
    Name = lists:concat(["yoyoash_", os:getpid(), "_", erlang:unique_integer([positive])]),
    File = filename:join(os:getenv("TMPDIR", "/tmp"), Name),
    ok = file:write_file(File, Text),
    ok = file:change_mode(File, Mode),
    try Do(File) after file:delete(File) end.

%% Runs what ends processes, and returns what is logged meanwhile and shortly after.
-spec logged(fun(() -> term())) -> [string()].
logged(Do) ->
    {ok, Usual} = logger:get_handler_config(default),
    ok = logger:remove_handler(default),
    ok = logger:add_handler(?MODULE, ?MODULE, #{config => self()}),
    try
        _ = Do(),
        lines(100)
    after
        ok = logger:remove_handler(?MODULE),
        ok = logger:add_handler(default, maps:get(module, Usual), maps:without([id, module], Usual))
    end.

%% Receives the lines, until none has come for some milliseconds.
lines(Milliseconds) ->
    receive
        {logged, Line} -> [Line | lines(Milliseconds)]
    after Milliseconds -> []
    end.

%% Is the handler of the log: it sends each event as text.
-spec log(logger:log_event(), logger:handler_config()) -> term().
log(Event, #{config := Test}) -> Test ! {logged, lists:flatten(logger_formatter:format(Event, #{}))}.

%% Runs a function in a node of its own, without distribution.
-spec in_peer([string()], fun(), [term()]) -> term().
in_peer(Flags, Function, Args) ->
    {module, Module} = erlang:fun_info(Function, module),
    {name, Name} = erlang:fun_info(Function, name),
    Path = ["-pa", filename:dirname(code:which(yoyoash)), "-pa", filename:dirname(code:which(Module))],
    {ok, Peer, _} = peer:start(#{connection => standard_io, args => Flags ++ Path}),
    try peer:call(Peer, Module, Name, Args, 60_000) after peer:stop(Peer) end.

%%% What only the state of the server shows

%% Returns the number of requests that the server has made.
-spec requests() -> non_neg_integer().
requests() -> yoyoash_requests:count(element(4, sys:get_state(yoyoash))).

%% Returns the processes that have not ended.
-spec live() -> [pid()].
live() -> yoyoash_processes:live(kept_processes()).

-spec kept_processes() -> yoyoash_processes:processes().
kept_processes() -> element(5, sys:get_state(yoyoash)).

%% Returns the bytes of the server and of the table of numbers.
-spec memory() -> non_neg_integer().
memory() ->
    true = garbage_collect(whereis(yoyoash)),
    {memory, Server} = process_info(whereis(yoyoash), memory),
    Server + ets:info(element(3, sys:get_state(yoyoash)), memory) * erlang:system_info(wordsize).
