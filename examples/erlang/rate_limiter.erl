%% A limit of 100 requests for each client in a window of time. Processes count at once: update_counter adds 1 and returns
%% the new count in one step, so no two requests get the same count.
-module(rate_limiter).
-export([new/0, is_allowed/2, forget/1, main/0]).
-include_lib("stdlib/include/ms_transform.hrl").

-define(MOST, 100).

%% Makes the table of counts {{Client,Window},Count}. Any process may count. The table ends with the caller.
new() -> yoyoash:new(counts, [named_table, public]).

%% Counts a request, and says whether the client may make it. The first request of a window inserts the default.
is_allowed(Client, Window) -> yoyoash:update_counter(counts, {Client, Window}, 1, {none, 0}) =< ?MOST.

%% Deletes the counts of the windows before this one, and returns their number.
forget(Window) ->
    AreOver = ets:fun2ms(fun({{_, Of}, _}) when Of < Window -> true end),
    yoyoash:select_delete(counts, AreOver).

main() ->
    {ok, _} = yoyoash:start(),
    counts = new(),
    Allowed = lists:append(at_once(4, fun() -> [is_allowed("10.0.0.7", 1) || _ <- lists:seq(1, 50)] end)),
    Yes = length([It || It <- Allowed, It]),
    io:format("4 processes made ~p requests: ~p allowed, ~p refused~n", [length(Allowed), Yes, length(Allowed) - Yes]),
    io:format("in the next window: ~p~n", [is_allowed("10.0.0.7", 2)]),
    io:format("windows that were forgotten: ~p~n", [forget(2)]),
    ok = yoyoash:stop().

%% Runs a function in several processes at once, and returns what each returned.
at_once(Count, Do) ->
    Refs = [element(2, spawn_monitor(fun() -> exit({done, Do()}) end)) || _ <- lists:seq(1, Count)],
    [receive {'DOWN', Ref, process, _, {done, Value}} -> Value end || Ref <- Refs].
