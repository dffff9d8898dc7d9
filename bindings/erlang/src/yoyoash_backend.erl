%% @doc Chooses where the store is: in the program `ets_script', which a port runs, or inside this node by a NIF.
-module(yoyoash_backend).
-export([find/1, open/1, close/1, is_part/2]).
-export_type([plan/0, backend/0]).
%% (Dialyzer does not know that the NIF replaces yoyoash_nif:is_loaded/0)
-dialyzer({no_match, [find/1, backend/1]}).

-type plan() :: {port, file:filename_all(), [string()]} | {nif, yoyoash_inside:limits()}.
-type backend() :: {port, yoyoash_port:connection()} | {nif, yoyoash_inside:inside()}.

%% @doc Plans a store: with the NIF if the options or the environment name it, or if they name nothing and it is built.
-spec find(yoyoash_options:complete()) -> {ok, plan()} | {error, yoyoash_program:error()}.
find(Options) ->
    case {backend(Options), yoyoash_nif:is_loaded()} of
        {nif, true} -> {ok, {nif, maps:with([max_processes, max_tables, max_objects, seed], Options)}};
        {nif, false} -> {error, no_nif};
        {port, _} -> program(yoyoash_program:find(Options), Options)
    end.

backend(#{backend := Backend}) -> Backend;
backend(Options) ->
    case not yoyoash_program:is_named(Options) andalso yoyoash_nif:is_loaded() of
        true -> nif;
        false -> port
    end.

program({ok, Program}, Options) -> {ok, {port, Program, yoyoash_program:args(Options)}};
program(Error, _Options) -> Error.

%% @doc Opens a store for this process.
-spec open(plan()) -> {ok, backend()} | {error, term()}.
open({port, Program, Args}) ->
    case yoyoash_port:open(Program, Args) of
        {ok, Connection} -> {ok, {port, Connection}};
        Error -> Error
    end;
open({nif, Limits}) ->
    case yoyoash_inside:open(Limits) of
        {ok, Inside} -> {ok, {nif, Inside}};
        Error -> Error
    end.

%% @doc Closes what {@link open/1} opened.
-spec close(backend()) -> ok.
close({port, Connection}) -> yoyoash_port:close(Connection);
close({nif, Inside}) -> yoyoash_inside:close(Inside).

%% @doc Says whether a store cannot go on without this port or process.
-spec is_part(port() | pid(), backend()) -> boolean().
is_part(Part, {port, Connection}) -> Part =:= yoyoash_port:port(Connection);
is_part(Part, {nif, Inside}) -> yoyoash_inside:is_part(Part, Inside).
