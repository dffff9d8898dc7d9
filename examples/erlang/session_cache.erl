%% A cache of sessions {Name,User,End} with a process that owns it and deletes the sessions that have ended, by a match
%% specification. Times are seconds, which the caller gives.
-module(session_cache).
-behaviour(gen_server).
-export([start_link/0, stop/0, add/3, find/2, expire/1, main/0]).
-export([init/1, handle_call/3, handle_cast/2]).
-include_lib("stdlib/include/ms_transform.hrl").

%% Starts the owner of the cache, in the store that is running.
start_link() -> gen_server:start_link({local, ?MODULE}, ?MODULE, [], []).

stop() -> gen_server:stop(?MODULE).

%% Adds a session, or writes it again. Any process may, since the table is public.
add(Name, User, End) -> yoyoash:insert(sessions, {Name, User, End}).

%% Returns the user of a session that has not ended.
find(Name, Now) ->
    case yoyoash:lookup(sessions, Name) of
        [{Name, User, End}] when Now < End -> {ok, User};
        _ -> none
    end.

%% Deletes the sessions that have ended, and returns their number.
expire(Now) -> gen_server:call(?MODULE, {expire, Now}).

init([]) ->
    sessions = yoyoash:new(sessions, [named_table, public]),
    {ok, none}.

%% (the compiler writes the specification [{{'_','_','$1'}, [{'=<','$1',{const,Now}}], [true]}])
handle_call({expire, Now}, _From, none) ->
    HaveEnded = ets:fun2ms(fun({_, _, End}) when End =< Now -> true end),
    {reply, yoyoash:select_delete(sessions, HaveEnded), none}.

handle_cast(_Message, none) -> {noreply, none}.

main() ->
    {ok, _} = yoyoash:start(),
    {ok, _} = start_link(),
    [true = add(Name, User, End) || {Name, User, End} <- [{s1, "anna", 160}, {s2, "ben", 170}, {s3, <<"}),exit(">>, 300}]],
    io:format("s1 at 150: ~p~n", [find(s1, 150)]),
    io:format("s3 at 150: ~p~n", [find(s3, 150)]),
    io:format("expired at 165: ~p~n", [expire(165)]),
    io:format("s1 at 165: ~p~n", [find(s1, 165)]),
    io:format("s2 at 165: ~p~n", [find(s2, 165)]),
    ok = stop(),
    ok = yoyoash:stop().
