%% @doc Makes requests to the store inside this node, by the NIF.
%%
%% A request that may be long is done by a dirty scheduler. If another request has the store, the caller waits for its
%% turn outside the NIF.
-module(yoyoash_inside).
-export([open/1, close/1, is_part/2, ask/4, ask_long/4]).
-export_type([inside/0, limits/0]).

-type inside() :: {yoyoash_nif:handle(), yoyoash_turns:turns()}.
-type limits() :: #{
    max_processes := non_neg_integer(),
    max_tables := non_neg_integer(),
    max_objects := non_neg_integer(),
    seed := non_neg_integer() | random
}.
%% How long a caller that has its turn waits until it tries again, in milliseconds.
-define(AGAIN, 1).

%% @doc Opens a store for this process.
-spec open(limits()) -> {ok, inside()} | {error, enomem | no_seed}.
open(#{max_processes := Processes, max_tables := Tables, max_objects := Objects, seed := Seed}) ->
    case yoyoash_nif:open(Processes, Tables, Objects, Seed) of
        {ok, Handle} ->
            {ok, Turns} = yoyoash_turns:start_link(),
            {ok, {Handle, Turns}};
        Error ->
            Error
    end.

%% @doc Closes a store.
-spec close(inside()) -> ok.
close({Handle, Turns}) ->
    ok = yoyoash_turns:stop(Turns),
    yoyoash_nif:close(Handle).

%% @doc Says whether a process lets the callers of this store take turns.
-spec is_part(port() | pid(), inside()) -> boolean().
is_part(Part, {_Handle, {Pid, _}}) -> Part =:= Pid.

%% @doc Answers a request as the program does: kind 0 spawns a process, 1 ends it, 2 makes the call that the bytes are.
-spec ask(inside(), 0..2, non_neg_integer(), binary()) -> binary().
ask(Inside = {Handle, _}, Kind, N, Bytes) ->
    case yoyoash_nif:ask(Handle, Kind, N, Bytes) of
        busy -> in_turn(Inside, Kind, N, Bytes);
        Reply -> Reply
    end.

%% @doc Answers a request that may be long. A caller tries at once only if nobody waits.
-spec ask_long(inside(), 0..2, non_neg_integer(), binary()) -> binary().
ask_long(Inside = {Handle, Turns}, Kind, N, Bytes) ->
    case yoyoash_turns:is_free(Turns) andalso yoyoash_nif:ask_long(Handle, Kind, N, Bytes) of
        Reply when is_binary(Reply) -> Reply;
        _Taken -> in_turn(Inside, Kind, N, Bytes)
    end.

in_turn({Handle, Turns}, Kind, N, Bytes) ->
    yoyoash_turns:run(Turns, fun() -> until_free(Handle, Kind, N, Bytes) end).

until_free(Handle, Kind, N, Bytes) ->
    case yoyoash_nif:ask_long(Handle, Kind, N, Bytes) of
        busy ->
            timer:sleep(?AGAIN),
            until_free(Handle, Kind, N, Bytes);
        Reply ->
            Reply
    end.
