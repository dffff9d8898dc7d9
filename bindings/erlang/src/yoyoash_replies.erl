%% @doc Sends the requests of a store's server, and does what follows from their replies.
%%
%% The NIF replies at once, and the port later. What follows is the same.
-module(yoyoash_replies).
-export([send/5, reply/3, read/2, again/2]).
-include("yoyoash_store.hrl").

%% When to try again to end a process or to read its messages, if there was no memory for it, in milliseconds.
-define(AGAIN, 1_000).

%% @doc Sends a request: kind 0 spawns a process, 1 ends it, 2 makes the call that the bytes are.
-spec send(0..2, non_neg_integer(), binary(), purpose(), #store{}) -> #store{}.
send(Kind, N, Bytes, Purpose, S = #store{requests = Requests}) ->
    case yoyoash_requests:send(Kind, N, Bytes, Purpose, Requests) of
        {waits, Now} -> S#store{requests = Now};
        {reply, Body, Now} -> reply(Purpose, Body, S#store{requests = Now})
    end.

%% @doc Does what follows from a reply.
-spec reply(purpose(), binary(), #store{}) -> #store{}.
reply({caller, From}, Body, S) ->
    gen_server:reply(From, Body),
    S;
reply({spawned, Pid}, Body, S) ->
    yoyoash_enrolment:spawned(Pid, Body, S);
reply({made, From, N, Heirs}, Body, S) ->
    gen_server:reply(From, Body),
    yoyoash_transfers:made(Body, N, Heirs, S);
reply({heir, Giver, Taker}, Body, S) ->
    yoyoash_transfers:heir(Body, Giver, Taker, S);
reply(gift, Body, S) ->
    S#store{held = Body};
reply({messages, Pid, For}, Body, S) ->
    yoyoash_transfers:deliver(Body, Pid, For, S);
reply({ended, Pid, N, Asked}, Body, S) ->
    yoyoash_enrolment:exited(Body, Pid, N, Asked, S).

%% @doc Reads the term of a reply. Bytes that are no term end the store.
-spec read(binary(), #store{}) -> term().
read(Bytes, #store{known = Known}) ->
    try yoyoash_term:read(Bytes, Known)
    catch _:_ -> throw({stop, no_term})
    end.

%% @doc Sends this server a message later.
-spec again(term(), #store{}) -> #store{}.
again(Message, S) ->
    _ = erlang:send_after(?AGAIN, self(), Message),
    S.
