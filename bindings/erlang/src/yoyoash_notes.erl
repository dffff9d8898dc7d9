%% @doc Keeps what the program writes on standard error, which carries no packets, in a file without a name.
-module(yoyoash_notes).
-export([new/0, redirected/3, unname/1, log/1, last/1]).
-export_type([notes/0]).
-include_lib("kernel/include/logger.hrl").

%% How many of the last notes are kept.
-define(KEPT, 20).
%% The variable that tells the shell the name of the file.
-define(VARIABLE, "YOYOASH_NOTES").

%% The file, or that there is none: then the notes go where those of this node go.
-type notes() :: {string(), file:io_device(), Logged :: non_neg_integer()} | none.

%% @doc Makes the file of a program.
-spec new() -> notes().
new() ->
    Name = lists:concat(["yoyoash_", os:getpid(), "_", erlang:unique_integer([positive])]),
    File = filename:join(os:getenv("TMPDIR", "/tmp"), Name),
    case file:open(File, [read, write, exclusive, raw, binary]) of
        {ok, Device} -> {File, Device, 0};
        {error, _} -> none
    end.

%% @doc Returns the command, the words and the environment that start a program with its notes in the file.
-spec redirected(file:filename_all(), [string()], notes()) ->
    {file:filename_all(), [file:filename_all()], [{string(), string()}]}.
redirected(Program, Args, none) -> {Program, Args, []};
redirected(Program, Args, {File, _, _}) ->
    {"/bin/sh", ["-c", "exec \"$0\" \"$@\" 2>>\"$" ?VARIABLE "\"", Program | Args], [{?VARIABLE, File}]}.

%% @doc Removes the name of the file, when the program has opened it.
-spec unname(notes()) -> ok.
unname(none) -> ok;
unname({File, _, _}) ->
    _ = file:delete(File),
    ok.

%% @doc Logs the notes that have come, each as a notice.
-spec log(notes()) -> notes().
log(none) -> none;
log({File, Device, Logged}) ->
    Lines = lines({File, Device, Logged}),
    lists:foreach(fun(Line) -> ?LOG_NOTICE("yoyoash: ~ts", [Line]) end, lists:nthtail(min(Logged, length(Lines)), Lines)),
    {File, Device, length(Lines)}.

%% @doc Returns the last notes.
-spec last(notes()) -> [binary()].
last(Notes) ->
    Lines = lines(Notes),
    lists:nthtail(max(0, length(Lines) - ?KEPT), Lines).

lines(none) -> [];
lines({_, Device, _}) ->
    case file:pread(Device, 0, 65_536) of
        {ok, Text} -> [Line || Line <- binary:split(Text, <<"\n">>, [global]), Line =/= <<>>];
        _ -> []
    end.
