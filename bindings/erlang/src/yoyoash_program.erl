%% @doc Finds the program `ets_script' and explains what to do if it cannot be started.
-module(yoyoash_program).
-export([is_named/1, find/1, args/1, check_platform/2, format_error/1]).
-export_type([error/0]).

-type error() ::
    no_program
    | {no_program, file:filename_all()}
    | {not_executable, file:filename_all()}
    | {wrong_platform, string()}
    | no_nif
    | no_seed
    | yoyoash_options:error()
    | {cannot_start, file:filename_all(), term()}
    | {program_ended, file:filename_all(), yoyoash:ended(), [binary()]}
    | {no_answer, file:filename_all(), [binary()]}.

%% @doc Says whether the options or an environment name a program.
-spec is_named(yoyoash_options:complete()) -> boolean().
is_named(#{program := _}) -> true;
is_named(_Options) -> os:getenv("YOYOASH_PROGRAM", "") =/= "" orelse application:get_env(yoyoash, program) =/= undefined.

%% @doc Returns the path of the program, from the options or from the first place that has one.
-spec find(yoyoash_options:complete()) -> {ok, file:filename_all()} | {error, error()}.
find(#{program := Program}) -> usable(Program);
find(_Options) ->
    case {os:getenv("YOYOASH_PROGRAM", ""), application:get_env(yoyoash, program)} of
        {[_ | _] = Program, _} -> usable(Program);
        {"", {ok, Program}} -> usable(Program);
        {"", undefined} -> found()
    end.

%% Looks in the repository around this module, then on PATH, and never in the current folder.
found() ->
    Programs = [Program || File <- [code:which(?MODULE), source()], Program <- in_repository(File)],
    case Programs ++ [os:find_executable("ets_script")] of
        [false] -> {error, no_program};
        [Program | _] -> native(Program)
    end.

%% Returns the path of this module's source when it was compiled.
source() -> proplists:get_value(source, module_info(compile), "").

%% Goes up from a file, and through links, until a folder holds this binding and the program.
in_repository([_ | _] = File) -> above(filename:dirname(filename:absname(File)));
in_repository(_NoFile) -> [].

above("/") -> [];
above(Folder) ->
    Program = filename:join(Folder, "ets_script"),
    Binding = filename:join([Folder, "bindings", "erlang", "rebar.config"]),
    case filelib:is_regular(Binding) andalso filelib:is_regular(Program) of
        true -> [Program];
        false -> above(target(file:read_link_all(Folder), filename:dirname(Folder)))
    end.

target({ok, Link}, Parent) -> filename:absname(Link, Parent);
target({error, _NoLink}, Parent) -> Parent.

%% The program that was found runs on one platform. A program that the user names may be a way to another machine.
native(Program) ->
    case check_platform(os:type(), erlang:system_info(system_architecture)) of
        ok -> usable(Program);
        Error -> Error
    end.

%% @doc Accepts the platform that the program is built for.
-spec check_platform({unix | win32, atom()}, string()) -> ok | {error, error()}.
check_platform({unix, linux}, "x86_64" ++ _) -> ok;
check_platform(_Type, Architecture) -> {error, {wrong_platform, Architecture}}.

usable(Program) ->
    Path = filename:absname(Program),
    case {filelib:is_regular(Path), executable(Path)} of
        {false, _} -> {error, {no_program, Path}};
        {true, false} -> {error, {not_executable, Path}};
        {true, true} -> {ok, Path}
    end.

executable(Path) -> os:find_executable(filename_string(Path)) =/= false.

filename_string(Path) when is_list(Path) -> Path;
filename_string(Path) -> unicode:characters_to_list(Path, file:native_name_encoding()).

%% @doc Returns the arguments of the program. It draws a seed by itself if none is given.
-spec args(yoyoash_options:complete()) -> [string()].
args(#{max_processes := Processes, max_tables := Tables, max_objects := Objects, seed := Seed}) ->
    Given = [{"--max-processes", Processes}, {"--max-tables", Tables}, {"--max-objects", Objects}, {"--seed", Seed}],
    ["--external" | lists:append([[Option, integer_to_list(N)] || {Option, N} <- Given, is_integer(N)])].

%% @doc Explains in one line why no store was started, and what to do.
-spec format_error(error() | term()) -> string().
format_error({yoyoash, {{shutdown, {failed_to_start_child, _Name, Reason}}, _Start}}) ->
    format_error(Reason);
format_error(no_program) ->
    "the program ets_script was not found: set YOYOASH_PROGRAM to its path";
format_error(no_nif) ->
    "the NIF is not built: run c_src/build, or use #{backend => port}";
format_error({unknown_option, args}) ->
    "there is no option args any more: give the limits by the keys max_processes, max_tables and max_objects";
format_error({unknown_option, Key}) ->
    text("there is no option ~0tp: the options are name, backend, program, max_processes, max_tables, max_objects, seed "
         "and grace", [Key]);
format_error({bad_option, Key, Value}) ->
    text("the option ~0tp cannot be ~0tP: it is ~ts", [Key, Value, 20, wanted(Key)]);
format_error(no_seed) ->
    "the system gives no random seed: choose a number as the option seed";
format_error(enomem) ->
    "there is no memory for a store: free some";
format_error({no_program, Path}) ->
    text("there is no program ~ts: set YOYOASH_PROGRAM to the path of ets_script", [Path]);
format_error({not_executable, Path}) ->
    text("~ts is not executable: run chmod +x ~ts", [Path, Path]);
format_error({wrong_platform, Architecture}) ->
    text("the program ets_script needs x86-64 Linux and this is ~ts: "
         "set YOYOASH_PROGRAM to a command that reaches such a machine", [Architecture]);
format_error({cannot_start, Path, Reason}) ->
    text("~ts cannot be started (~0tp): run ~ts --version to see why", [Path, Reason, Path]);
format_error({program_ended, Path, Ended, Notes}) ->
    Lacks = [Option || Option <- ["--external", "--seed"], Note <- Notes, lacks(Option, Note)],
    case Lacks of
        [] -> not_started(Path, Ended, Notes);
        [Option | _] -> text("~ts is older than this binding, since it has no option ~ts: "
                             "set YOYOASH_PROGRAM to the ets_script of this version", [Path, Option])
    end;
format_error({no_answer, Path, Notes}) ->
    text("~ts does not answer~ts: set YOYOASH_PROGRAM to the path of ets_script", [Path, telling_note(Notes)]);
format_error({already_started, Pid}) ->
    text("a store is running already, as process ~p: "
         "use it, or end it by yoyoash:stop() or application:stop(yoyoash)", [Pid]);
format_error({shutdown, Reason}) ->
    format_error(Reason);
format_error({program_ended, Ended}) ->
    text("the program ended (~ts): start a store again", [ended(Ended)]);
format_error(no_term) ->
    "the store was ended, since a reply was no term: is the program that of this version? Start a store again";
format_error(no_request) ->
    "the store was ended, since the program answered without a request: start a store again";
format_error({part_ended, Part}) ->
    text("the store was ended, since its process ~p has ended: start a store again", [Part]);
format_error(Other) ->
    text("~0tp", [Other]).

%% Says what a value of an option is.
wanted(name) -> "an atom, the name under which the store is registered";
wanted(backend) -> "port or nif";
wanted(program) -> "the path of ets_script, a string or a binary";
wanted(seed) -> "random, or a number from 1 to 4,294,967,295";
wanted(_Limit) -> "a number from 0 to 4,294,967,295".

lacks(Option, Note) -> binary:match(Note, iolist_to_binary(["unexpected argument '", Option, "'"])) =/= nomatch.

not_started(Path, Ended, Notes) ->
    text("~ts ended before its first answer (~ts)~ts: run ~ts --version to see why",
         [Path, ended(Ended), telling_note(Notes), Path]).

ended({status, Status}) -> text("status ~b", [Status]);
ended({closed, Reason}) -> text("~0tp", [Reason]).

%% Returns the first note that says what is wrong, or else the last one.
telling_note([]) -> "";
telling_note(Notes) ->
    Errors = [Note || Note = <<"error: ", _/binary>> <- Notes],
    text(", ~ts", [hd(Errors ++ [lists:last(Notes)])]).

text(Format, Args) -> lists:flatten(io_lib:format(Format, Args)).
