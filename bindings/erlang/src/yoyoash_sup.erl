%% @doc Supervises one store, for the application.
-module(yoyoash_sup).
-behaviour(supervisor).
-export([start_link/0, init/1]).

%% @doc Starts the supervisor and its store.
-spec start_link() -> supervisor:startlink_ret().
start_link() -> supervisor:start_link({local, ?MODULE}, ?MODULE, []).

%% @doc Restarts a store that ends, at most three times in ten seconds.
-spec init([]) -> {ok, {supervisor:sup_flags(), [supervisor:child_spec()]}}.
init([]) ->
    {ok, {#{strategy => one_for_one, intensity => 3, period => 10}, [yoyoash:child_spec(#{})]}}.
