%% Tests of starting and stopping stores, over the program that YOYOASH_PROGRAM names or that the repository holds.
-module(yoyoash_start_tests).
-include_lib("eunit/include/eunit.hrl").
-import(yoyoash_help, [backends/0, shown/1, contains/2, eventually/1, quietly/1, in_file/3]).

start_test_() ->
    [
        {Name, {timeout, 60, Test}}
     || {Name, Test} <- [
            {"programs that cannot be started", fun bad_programs/0},
            {"the platform", fun platform/0},
            {"the backend", fun backend/0},
            {"limits", fun limits/0},
            {"an application", fun application/0},
            {"an application that does not start", fun application_fails/0},
            {"a child of a supervisor", fun supervised/0},
            {"options", fun options/0},
            {"a message for which memory lacked", fun message_later/0}
        ]
    ].

%% Each mistake is one line with a remedy, and no report.
bad_programs() ->
    bad_program("/no/such/program", no_program, "YOYOASH_PROGRAM"),
    in_file("#!/bin/sh\n", 8#644, fun(File) -> bad_program(File, not_executable, "chmod +x") end),
    in_file("#!/bin/sh\necho 'ets_script: rt not found' >&2; exit 3\n", 8#755, fun(File) ->
        Error = bad_program(File, program_ended, "--version"),
        contains(yoyoash:format_error(Error), "rt not found"),
        contains(yoyoash:format_error(Error), "status 3")
    end),
    in_file("\177ELF no program", 8#755, fun(File) -> bad_program(File, program_ended, "--version") end),
    in_file("#!/bin/sh\nseq 1000 >&2; exit 3\n", 8#755, fun(File) ->
        {program_ended, _, {status, 3}, Notes} = bad_program(File, program_ended, "1000"),
        ?assertEqual([integer_to_binary(N) || N <- lists:seq(981, 1000)], Notes)
    end),
    in_file("#!/bin/sh\nseq 1000; exit 3\n", 8#755, fun(File) -> bad_program(File, program_ended, "status 3") end),
    in_file("#!/bin/sh\necho hello; exec sleep 5\n", 8#755, fun(File) -> bad_program(File, no_answer, "YOYOASH_PROGRAM") end),
    in_file("#!/bin/sh\necho \"error: unexpected argument '--external' found\" >&2; exit 2\n", 8#755, fun(File) ->
        bad_program(File, program_ended, "older than this binding")
    end),
    in_file("#!/bin/sh\necho \"error: unexpected argument '--seed' found\" >&2; exit 2\n", 8#755, fun(File) ->
        bad_program(File, program_ended, "no option --seed")
    end),
    ok.

bad_program(Program, Kind, Remedy) ->
    {error, Reason} = yoyoash:start(#{program => Program}),
    ?assertEqual(Kind, element(1, Reason)),
    Line = yoyoash:format_error(Reason),
    contains(Line, Remedy),
    ?assertEqual(nomatch, string:find(Line, "\n")),
    Reason.

platform() ->
    ok = yoyoash_program:check_platform({unix, linux}, "x86_64-pc-linux-gnu"),
    {error, Reason} = yoyoash_program:check_platform({unix, darwin}, "aarch64-apple-darwin22.1.0"),
    contains(yoyoash:format_error(Reason), "aarch64-apple-darwin22.1.0"),
    contains(yoyoash:format_error(Reason), "YOYOASH_PROGRAM").

%% A program that is named is used, and no backend of another name.
backend() ->
    {error, {no_program, _}} = yoyoash:start(#{program => "/no/such/program"}),
    ok = without_nif(yoyoash_nif:is_loaded()),
    Program = os:getenv("YOYOASH_PROGRAM", ""),
    ?assertMatch({ok, {port, _, ["--external" | _]}}, plan(#{program => "/bin/sh"})),
    true = os:putenv("YOYOASH_PROGRAM", ""),
    ?assertEqual(lists:last(backends()), chosen(plan(#{}))),
    ok = application:set_env(yoyoash, backend, port),
    ?assertEqual(port, chosen(plan(#{}))),
    ok = application:unset_env(yoyoash, backend),
    true = os:putenv("YOYOASH_PROGRAM", Program),
    ok.

chosen({ok, {nif, _}}) -> nif;
chosen({ok, {port, _, _}}) -> port;
chosen({error, {wrong_platform, _}}) -> port;
chosen({error, no_program}) -> port.

plan(Options) ->
    {ok, Complete} = yoyoash_options:complete(Options),
    yoyoash_backend:find(Complete).

%% Without the NIF, the error says how to build it.
without_nif(true) -> ok;
without_nif(false) ->
    {error, no_nif} = yoyoash:start(#{backend => nif}),
    contains(yoyoash:format_error(no_nif), "c_src/build").

limits() -> lists:foreach(fun limits/1, backends()).

limits(Backend) ->
    {ok, _} = yoyoash:start(#{backend => Backend, max_objects => 1, max_tables => 1}),
    t = yoyoash:new(t, [named_table]),
    {system_limit, _} = shown(fun() -> yoyoash:insert(t, [{a}, {b}]) end),
    {system_limit, _} = shown(fun() -> yoyoash:new(u, []) end),
    yoyoash:stop(),
    ok = application:set_env(yoyoash, max_processes, 1),
    {ok, _} = yoyoash:start(#{backend => Backend}),
    t = yoyoash:new(t, [named_table]),
    Other = spawn(fun() -> receive stop -> ok end end),
    [{system_limit, _} = shown(fun() -> yoyoash:insert(t, {Other}) end) || _ <- [1, 2]],
    [] = yoyoash:tab2list(t),
    Other ! stop,
    yoyoash:stop(),
    ok = application:unset_env(yoyoash, max_processes).

application() ->
    ok = application:load(yoyoash),
    {ok, _} = application:ensure_all_started(yoyoash),
    t = yoyoash:new(t, [named_table]),
    quietly(fun() -> ok = application:stop(yoyoash), ok = application:unload(yoyoash) end),
    undefined = erlang:whereis(yoyoash).

application_fails() ->
    ok = application:load(yoyoash),
    Program = os:getenv("YOYOASH_PROGRAM", ""),
    true = os:putenv("YOYOASH_PROGRAM", "/no/such/program"),
    quietly(fun() ->
        {error, Reason} = application:ensure_all_started(yoyoash),
        contains(yoyoash:format_error(Reason), "/no/such/program")
    end),
    true = os:putenv("YOYOASH_PROGRAM", Program),
    ok = application:unload(yoyoash).

supervised() ->
    process_flag(trap_exit, true),
    {ok, Sup} = yoyoash_sup:start_link(),
    First = erlang:whereis(yoyoash),
    quietly(fun() ->
        exit(First, kill),
        ok = eventually(fun() -> is_pid(erlang:whereis(yoyoash)) andalso erlang:whereis(yoyoash) =/= First end)
    end),
    t = yoyoash:new(t, [named_table]),
    exit(Sup, shutdown),
    receive {'EXIT', Sup, shutdown} -> ok end,
    undefined = erlang:whereis(yoyoash).

%% The error names the key that is unknown or has a wrong value. The old option `args' has a text of its own.
options() ->
    {badarg, _} = shown(fun() -> yoyoash:start([]) end),
    fault(#{progam => "x"}, {unknown_option, progam}, "there is no option progam"),
    fault(#{args => ["--max-objects", "5"]}, {unknown_option, args}, "max_objects"),
    fault(#{max_objects => "5"}, {bad_option, max_objects, "5"}, "0 to 4,294,967,295"),
    [
        fault(Options, {bad_option, Key, Value}, atom_to_list(Key))
     || Options <- [
            #{max_tables => -1}, #{max_processes => 4_294_967_296}, #{seed => 0}, #{seed => 1 bsl 32}, #{seed => none},
            #{grace => -1}, #{name => "x"}, #{name => undefined}, #{backend => socket}, #{program => none}
        ],
        {Key, Value} <- maps:to_list(Options)
    ],
    ok = application:set_env(yoyoash, args, []),
    fault(#{}, {unknown_option, args}, "max_tables"),
    application:unset_env(yoyoash, args).

fault(Options, Fault, Text) ->
    {error, Fault} = yoyoash:start(Options),
    contains(yoyoash:format_error(Fault), Text).

%% Runs a program that has no memory for the messages of a process at first: they are sent later.
message_later() ->
    in_file(forgetful_program(), 8#755, fun(File) ->
        {ok, _} = yoyoash:start(#{program => File}),
        Self = self(),
        Giver = spawn(fun() -> true = yoyoash:give_away(t, Self, gift), receive stop -> ok end end),
        receive {'ETS-TRANSFER', t, Giver, gift} -> ok after 10_000 -> error(no_transfer) end,
        yoyoash:stop(),
        Giver ! stop
    end).

%% Returns a program that has no memory for the first `receive'.
forgetful_program() ->
    "#!/usr/bin/env escript
%%! -noinput
main(_) ->
    Port = open_port({fd, 0, 1}, [{packet, 4}, binary, eof]),
    Pid = binary_to_term(<<131, 88, 119, 13, \"nonode@nohost\", 0:96>>),
    loop(Port, [<<4, \"out of memory\">>, [<<0>>, term_to_binary([{'ETS-TRANSFER', t, Pid, gift}], [{minor_version, 2}])]]).

loop(Port, Gifts) ->
    receive
        {Port, {data, <<2, _:32, Call/binary>>}} -> call(Port, element(1, binary_to_term(Call)), Gifts);
        {Port, {data, _}} -> say(Port, <<0, 131, 106>>, Gifts);
        {Port, eof} -> halt(0)
    end.

call(Port, give_away, Gifts) -> say(Port, [0, term_to_binary(true)], Gifts);
call(Port, 'receive', [Gift | Gifts]) -> say(Port, Gift, Gifts);
call(Port, _, Gifts) -> say(Port, <<3, \"no such process\">>, Gifts).

say(Port, Body, Gifts) ->
    port_command(Port, Body),
    loop(Port, Gifts).
".
