%% Measures the CPU time of one insertion and of one lookup, and the memory of a pair of integers, in ets.
-module(pairs).
-export([main/0]).

-define(PAIRS, 100000).
-define(LOOKUPS, 300000).

main() ->
    Table = ets:new(pairs, [public]),
    Keys = [rand:uniform(?PAIRS) - 1 || _ <- lists:seq(1, ?LOOKUPS)],
    Before = ets:info(Table, memory),
    Began = cpu(),
    lists:foreach(fun(Key) -> ets:insert(Table, {Key, Key}) end, lists:seq(0, ?PAIRS - 1)),
    Filled = cpu(),
    After = ets:info(Table, memory),
    lists:foreach(fun(Key) -> ets:lookup(Table, Key) end, Keys),
    Bytes = (After - Before) * erlang:system_info(wordsize) / ?PAIRS,
    Results = [(Filled - Began) / ?PAIRS, (cpu() - Filled) / ?LOOKUPS, Bytes],
    io:format("ets: insert ~b ns, lookup ~b ns, ~b bytes a pair~n", lists:map(fun round/1, Results)).

cpu() -> element(1, statistics(runtime)) * 1.0e6.
