%% @doc Runs the program `ets_script' and exchanges packets with it: a length in four bytes, and as many bytes.
%%
%% Packets are framed here, and not by the port's option `{packet, 4}', so that several leave in one write, and so that
%% a program of another kind cannot announce a packet of gigabytes.
-module(yoyoash_port).
-export([open/2, port/1, send/2, flush/1, is_pending/1, received/2, close/1]).
-export_type([connection/0]).

%% How long the first answer may take, since a program of changed sources is built first, in milliseconds.
-define(FIRST_ANSWER, 600_000).
%% How long a program that answers otherwise may take to end by itself, in milliseconds.
-define(LAST_WORDS, 1_000).
%% How long to wait until a program that closed its input says how it ended, in milliseconds.
-define(REASON, 1_000).
%% As soon as there are as many bytes as this, they are sent.
-define(FULL, 32_768).

-record(connection, {
    port :: port(),
    notes :: yoyoash_notes:notes(),
    %% The packets to send, the last one first, and their bytes.
    out = [] :: iodata(),
    size = 0 :: non_neg_integer(),
    %% How many bytes the next packet lacks at least, and what is there of it, the last part first.
    lacks = 4 :: pos_integer(),
    parts = [] :: [binary()]
}).
-opaque connection() :: #connection{}.

%% @doc Starts a program, and waits for its first answer, which shows that it runs.
-spec open(file:filename_all(), [string()]) -> {ok, connection()} | {error, yoyoash_program:error()}.
open(Program, Args) ->
    Notes = yoyoash_notes:new(),
    {Command, Words, Settings} = yoyoash_notes:redirected(Program, Args, Notes),
    Options = [{args, Words}, {env, Settings}, stream, binary, use_stdio, exit_status, hide],
    try open_port({spawn_executable, Command}, Options) of
        Port -> greet(Program, #connection{port = Port, notes = Notes})
    catch
        error:Reason -> {error, {cannot_start, Program, Reason}}
    after
        yoyoash_notes:unname(Notes)
    end.

%% Sends a call of a process that does not exist, which the store refuses. The program may have ended before.
greet(Program, C) ->
    Answer =
        try flush(send([<<2, 0:32>>, yoyoash_term:plain(whereis, [yoyoash])], C)) of
            Asked -> greeting(Asked, deadline(?FIRST_ANSWER))
        catch
            throw:{stop, {program_ended, Early}} -> {ended, Early}
        end,
    case Answer of
        {ok, Answered} ->
            {ok, Answered#connection{notes = yoyoash_notes:log(Answered#connection.notes)}};
        no_answer ->
            {error, {no_answer, Program, yoyoash_notes:last(C#connection.notes)}};
        {ended, Ended} ->
            {error, {program_ended, Program, Ended, yoyoash_notes:last(C#connection.notes)}}
    end.

deadline(Milliseconds) -> erlang:monotonic_time(millisecond) + Milliseconds.

%% Waits for the first answer until the deadline. What the program writes on standard error before it are notes, such as
%% that it is built first. They are logged if the program takes more than a second, or when it answers.
greeting(C = #connection{port = Port, notes = Notes}, Deadline) ->
    Left = max(0, Deadline - erlang:monotonic_time(millisecond)),
    receive
        {Port, {data, Data}} -> greeted(received(Data, C), Deadline);
        {Port, {exit_status, Status}} -> {ended, {status, Status}};
        {'EXIT', Port, Reason} -> {ended, {closed, Reason}}
    after min(Left, 1_000) ->
        case Left of
            0 -> no_answer;
            _ -> greeting(C#connection{notes = yoyoash_notes:log(Notes)}, Deadline)
        end
    end.

greeted({[<<3, _/binary>>], C}, _Deadline) -> {ok, C};
greeted({[], C = #connection{lacks = Lacks}}, Deadline) when Lacks < ?FULL -> greeting(C, Deadline);
greeted({_Other, C}, _Deadline) -> last_words(C, deadline(?LAST_WORDS)).

%% Waits until a program ends that answers otherwise than the store.
last_words(C = #connection{port = Port}, Deadline) ->
    receive
        {Port, {exit_status, Status}} -> {ended, {status, Status}};
        {'EXIT', Port, Reason} -> {ended, {closed, Reason}}
    after max(0, Deadline - erlang:monotonic_time(millisecond)) ->
        close(C),
        no_answer
    end.

%% @doc Returns the port, whose messages are for {@link received/2}.
-spec port(connection()) -> port().
port(#connection{port = Port}) -> Port.

%% @doc Adds a packet to those that are to be sent.
-spec send(iodata(), connection()) -> connection().
send(Body, C = #connection{out = Out, size = Size}) ->
    Length = iolist_size(Body),
    Now = C#connection{out = [Out, <<Length:32>> | Body], size = Size + Length},
    case Size + Length >= ?FULL of
        true -> flush(Now);
        false -> Now
    end.

%% @doc Says whether packets are to be sent.
-spec is_pending(connection()) -> boolean().
is_pending(#connection{out = Out}) -> Out =/= [].

%% @doc Sends what is to be sent. A program that has ended leaves a closed port, and a message that says how it ended.
-spec flush(connection()) -> connection().
flush(C = #connection{out = []}) -> C;
flush(C = #connection{port = Port, out = Out}) ->
    try port_command(Port, Out) of
        true -> C#connection{out = [], size = 0}
    catch
        error:badarg -> throw({stop, {program_ended, how_it_ended(Port)}})
    end.

how_it_ended(Port) ->
    receive
        {Port, {exit_status, Status}} -> {status, Status};
        {'EXIT', Port, Reason} -> {closed, Reason}
    after ?REASON -> {closed, unknown}
    end.

%% @doc Returns the bodies of the packets that are complete with some more bytes.
-spec received(binary(), connection()) -> {[binary()], connection()}.
received(Data, C = #connection{lacks = Lacks, parts = Parts}) when byte_size(Data) < Lacks ->
    {[], C#connection{lacks = Lacks - byte_size(Data), parts = [Data | Parts]}};
received(Data, C = #connection{parts = []}) -> split(Data, [], C);
received(Data, C = #connection{parts = Parts}) -> split(iolist_to_binary(lists:reverse(Parts, [Data])), [], C).

split(<<Size:32, Body:Size/binary, Rest/binary>>, Bodies, C) -> split(Rest, [Body | Bodies], C);
split(<<>>, Bodies, C) -> {lists:reverse(Bodies), C#connection{lacks = 4, parts = []}};
split(<<Size:32, Some/binary>> = Rest, Bodies, C) ->
    {lists:reverse(Bodies), C#connection{lacks = Size - byte_size(Some), parts = [Rest]}};
split(Rest, Bodies, C) -> {lists:reverse(Bodies), C#connection{lacks = 4 - byte_size(Rest), parts = [Rest]}}.

%% @doc Ends the program, which sees the end of its input, and logs what it wrote last.
-spec close(connection()) -> ok.
close(#connection{port = Port, notes = Notes}) ->
    _ = (catch port_close(Port)),
    _ = yoyoash_notes:log(Notes),
    ok.
