%% @doc Starts and stops one supervised store: `application:ensure_all_started(yoyoash)'.
%%
%% The environment of the application may have the options that {@link yoyoash:start_link/1} explains, except `name'.
-module(yoyoash_app).
-behaviour(application).
-export([start/2, stop/1]).
-include_lib("kernel/include/logger.hrl").

%% @doc Starts the supervisor of the store.
-spec start(application:start_type(), term()) -> {ok, pid()} | {error, term()}.
start(_Type, _Args) ->
    case yoyoash_sup:start_link() of
        {ok, Pid} -> {ok, Pid};
        {error, Reason} -> explained(Reason);
        ignore -> {error, ignore}
    end.

%% Logs one line that names the remedy, since the supervisor's report does not.
explained({shutdown, {failed_to_start_child, yoyoash, Reason}} = Shutdown) ->
    ?LOG_ERROR("yoyoash: ~ts", [yoyoash:format_error(Reason)]),
    {error, Shutdown};
explained(Reason) ->
    {error, Reason}.

%% @doc Has nothing left to do when the application stops.
-spec stop(term()) -> ok.
stop(_State) -> ok.
