%% @doc Keeps what the server knows of the store's processes: their numbers, their monitors, and the heirs of their tables.
-module(yoyoash_processes).
-export([
    new/0, enrol/4, spawned/2, refused/2, waiters/1, number/2, monitor/2, is_monitor/3, monitor_again/2, live/1, may_inherit/3, has_heirs/2,
    copy_heirs/3, take_heirs/2, ended/3
]).
-export_type([processes/0]).
-compile({no_auto_import, [monitor/2]}).

-record(processes, {
    %% The processes that have not ended, with their monitors and numbers.
    live = #{} :: #{pid() => {reference(), non_neg_integer()}},
    %% The heirs that the tables of a process may have: when it ends, the store may have messages for them.
    heirs = #{} :: #{Owner :: non_neg_integer() => #{pid() => true}},
    %% The same the other way: whose tables may go to a process.
    owners = #{} :: #{Heir :: pid() => #{non_neg_integer() => true}},
    %% The processes that are being spawned, with their numbers, whether they are kept, and who waits for it.
    spawning = #{} :: #{pid() => {non_neg_integer(), Keep :: boolean(), [gen_server:from()]}},
    %% The next number, and numbers that the store refused.
    next = 0 :: non_neg_integer(),
    spare = [] :: [non_neg_integer()]
}).
-opaque processes() :: #processes{}.

%% @doc Knows no process.
-spec new() -> processes().
new() -> #processes{}.

%% @doc Lets a caller wait until a process is spawned, and says whether its pid is kept. Returns the number for a process
%% that is new.
-spec enrol(pid(), Keep :: boolean(), gen_server:from(), processes()) ->
    {spawn, non_neg_integer(), processes()} | {waits, processes()}.
enrol(Pid, Keep, From, P = #processes{spawning = Spawning}) when is_map_key(Pid, Spawning) ->
    #{Pid := {N, Kept, Froms}} = Spawning,
    {waits, P#processes{spawning = Spawning#{Pid := {N, Kept orelse Keep, [From | Froms]}}}};
enrol(Pid, Keep, From, P = #processes{spare = [N | Spare]}) -> numbered(Pid, N, Keep, From, P#processes{spare = Spare});
enrol(Pid, Keep, From, P = #processes{next = N}) -> numbered(Pid, N, Keep, From, P#processes{next = N + 1}).

numbered(Pid, N, Keep, From, P = #processes{spawning = Spawning}) ->
    {spawn, N, P#processes{spawning = Spawning#{Pid => {N, Keep, [From]}}}}.

%% @doc Monitors a process that the store has spawned. Returns its number, whether it is kept, and who waited for it.
-spec spawned(pid(), processes()) -> {non_neg_integer(), Keep :: boolean(), [gen_server:from()], processes()}.
spawned(Pid, P = #processes{spawning = Spawning, live = Live}) ->
    {{N, Keep, Froms}, Left} = maps:take(Pid, Spawning),
    {N, Keep, Froms, P#processes{spawning = Left, live = Live#{Pid => {erlang:monitor(process, Pid), N}}}}.

%% @doc Remembers that the store has refused to spawn a process, which stays unknown. Returns who waited for it.
-spec refused(pid(), processes()) -> {[gen_server:from()], processes()}.
refused(Pid, P = #processes{spawning = Spawning, spare = Spare}) ->
    {{N, _, Froms}, Left} = maps:take(Pid, Spawning),
    {Froms, P#processes{spawning = Left, spare = [N | Spare]}}.

%% @doc Returns all who wait for a process.
-spec waiters(processes()) -> [gen_server:from()].
waiters(#processes{spawning = Spawning}) -> lists:flatmap(fun({_, _, Froms}) -> Froms end, maps:values(Spawning)).

%% @doc Returns the number of a process that has not ended.
-spec number(pid(), processes()) -> non_neg_integer() | none.
number(Pid, #processes{live = Live}) ->
    case Live of
        #{Pid := {_, N}} -> N;
        _ -> none
    end.

%% @doc Returns the monitor of a process that has not ended.
-spec monitor(pid(), processes()) -> reference().
monitor(Pid, #processes{live = Live}) ->
    {Ref, _} = maps:get(Pid, Live),
    Ref.

%% @doc Says whether a reference is the monitor of a process that has not ended.
-spec is_monitor(pid(), reference(), processes()) -> boolean().
is_monitor(Pid, Ref, #processes{live = Live}) ->
    case Live of
        #{Pid := {Ref, _}} -> true;
        _ -> false
    end.

%% @doc Monitors a process again, whose monitor has reported a lost connection.
-spec monitor_again(pid(), processes()) -> processes().
monitor_again(Pid, P = #processes{live = Live}) ->
    #{Pid := {_Lost, N}} = Live,
    P#processes{live = Live#{Pid := {erlang:monitor(process, Pid), N}}}.

%% @doc Returns the processes that have not ended.
-spec live(processes()) -> [pid()].
live(#processes{live = Live}) -> maps:keys(Live).

%% @doc Remembers that the tables of a process may have some heirs.
-spec may_inherit([pid()], Owner :: non_neg_integer(), processes()) -> processes().
may_inherit([], _Owner, P) -> P;
may_inherit(Pids, Owner, P = #processes{heirs = Heirs, owners = Owners}) ->
    Old = maps:get(Owner, Heirs, #{}),
    Live = [Pid || Pid <- Pids, number(Pid, P) =/= none],
    Named = fun(Pid, Of) -> Of#{Pid => (maps:get(Pid, Of, #{}))#{Owner => true}} end,
    P#processes{
        heirs = Heirs#{Owner => maps:merge(Old, maps:from_keys(Live, true))}, owners = lists:foldl(Named, Owners, Live)
    }.

%% @doc Says whether a table of a process may have an heir.
-spec has_heirs(non_neg_integer(), processes()) -> boolean().
has_heirs(Owner, #processes{heirs = Heirs}) -> is_map_key(Owner, Heirs).

%% @doc Remembers that a process may have got any table of another one.
-spec copy_heirs(From :: non_neg_integer(), To :: non_neg_integer(), processes()) -> processes().
copy_heirs(From, To, P = #processes{heirs = Heirs}) -> may_inherit(maps:keys(maps:get(From, Heirs, #{})), To, P).

%% @doc Returns the live heirs of a process that ends, and forgets that they were its heirs.
-spec take_heirs(non_neg_integer(), processes()) -> {[pid()], processes()}.
take_heirs(Owner, P = #processes{heirs = Heirs, owners = Owners}) ->
    Pids = maps:keys(maps:get(Owner, Heirs, #{})),
    Left = lists:foldl(fun(Pid, Of) -> remove(Owner, Pid, Of) end, Owners, Pids),
    {Pids, P#processes{heirs = maps:remove(Owner, Heirs), owners = Left}}.

%% Removes a member from the set with a key, and the set if nothing is left.
remove(Member, Key, Sets) ->
    case maps:remove(Member, maps:get(Key, Sets, #{})) of
        Left when map_size(Left) =:= 0 -> maps:remove(Key, Sets);
        Left -> Sets#{Key => Left}
    end.

%% @doc Remembers that a process has ended if the reference is that of its monitor, and returns its number.
-spec ended(pid(), reference(), processes()) -> {ended, non_neg_integer(), processes()} | not_live.
ended(Pid, Ref, P = #processes{live = Live, heirs = Heirs, owners = Owners}) ->
    case Live of
        #{Pid := {Ref, N}} ->
            Of = maps:keys(maps:get(Pid, Owners, #{})),
            Left = lists:foldl(fun(Owner, Now) -> remove(Pid, Owner, Now) end, Heirs, Of),
            {ended, N, P#processes{live = maps:remove(Pid, Live), heirs = Left, owners = maps:remove(Pid, Owners)}};
        _ ->
            not_live
    end.
