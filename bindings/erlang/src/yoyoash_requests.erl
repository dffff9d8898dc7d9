%% @doc Sends requests to the store, and keeps what the replies are for, which come in the order of the requests.
%%
%% Requests through the port wait until {@link flush/1} sends them all. The NIF answers each request at once.
-module(yoyoash_requests).
-export([new/1, send/5, replies/2, flush/1, is_unsent/1, is_part/2, count/1, waiting/1, close/1]).
-export_type([requests/0]).

-record(requests, {
    backend :: yoyoash_backend:backend(),
    %% The number of requests so far.
    count = 0 :: non_neg_integer(),
    %% What the replies that have not come are for.
    waiting = queue:new() :: queue:queue(term())
}).
-opaque requests() :: #requests{}.

%% @doc Has sent no request.
-spec new(yoyoash_backend:backend()) -> requests().
new(Backend) -> #requests{backend = Backend}.

%% @doc Sends a request: kind 0 spawns a process, 1 ends it, 2 makes the call that the bytes are. Returns the reply if it
%% has come.
-spec send(0..2, non_neg_integer(), binary(), Purpose :: term(), requests()) ->
    {waits, requests()} | {reply, binary(), requests()}.
send(Kind, N, Bytes, Purpose, R = #requests{backend = {port, Connection}, count = Count, waiting = Waiting}) ->
    Now = yoyoash_port:send([<<Kind, N:32>> | Bytes], Connection),
    {waits, R#requests{backend = {port, Now}, count = Count + 1, waiting = queue:in(Purpose, Waiting)}};
send(1, N, Bytes, _Purpose, R = #requests{backend = {nif, Inside}, count = Count}) ->
    {reply, yoyoash_inside:ask_long(Inside, 1, N, Bytes), R#requests{count = Count + 1}};
send(Kind, N, Bytes, _Purpose, R = #requests{backend = {nif, Inside}, count = Count}) ->
    {reply, yoyoash_inside:ask(Inside, Kind, N, Bytes), R#requests{count = Count + 1}}.

%% @doc Returns the replies that are complete with some bytes of the port, each with what it is for.
-spec replies(binary(), requests()) -> {[{Purpose :: term(), binary()}], requests()}.
replies(Data, R = #requests{backend = {port, Connection}, waiting = Waiting}) ->
    {Bodies, Now} = yoyoash_port:received(Data, Connection),
    {Replies, Left} = lists:mapfoldl(fun oldest/2, Waiting, Bodies),
    {Replies, R#requests{backend = {port, Now}, waiting = Left}}.

oldest(Body, Waiting) ->
    case queue:out(Waiting) of
        {{value, Purpose}, Left} -> {{Purpose, Body}, Left};
        {empty, _} -> throw({stop, no_request})
    end.

%% @doc Sends all requests that were not sent.
-spec flush(requests()) -> requests().
flush(R = #requests{backend = {port, Connection}}) -> R#requests{backend = {port, yoyoash_port:flush(Connection)}};
flush(R) -> R.

%% @doc Says whether there are requests that were not sent.
-spec is_unsent(requests()) -> boolean().
is_unsent(#requests{backend = {port, Connection}}) -> yoyoash_port:is_pending(Connection);
is_unsent(_) -> false.

%% @doc Says whether the store cannot go on without this port or process.
-spec is_part(port() | pid(), requests()) -> boolean().
is_part(Part, #requests{backend = Backend}) -> yoyoash_backend:is_part(Part, Backend).

%% @doc Returns the number of requests so far.
-spec count(requests()) -> non_neg_integer().
count(#requests{count = Count}) -> Count.

%% @doc Returns what the replies that have not come are for.
-spec waiting(requests()) -> [term()].
waiting(#requests{waiting = Waiting}) -> queue:to_list(Waiting).

%% @doc Closes the store.
-spec close(requests()) -> ok.
close(#requests{backend = Backend}) -> yoyoash_backend:close(Backend).
