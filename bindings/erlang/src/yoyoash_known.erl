%% @doc Keeps the number of each pid and of each table's reference, and the pid and the reference of each number.
%%
%% The store has numbers where this node has pids and references. They are in a table of `ets' that ends with the server,
%% so a caller that finds it works with the store whose numbers it has. A pid is forgotten when its process has ended,
%% unless an object or an heir may hold it: such a pid is kept.
-module(yoyoash_known).
-export([new/0, number/2, kept/2, keep/2, pid/2, table/2, add/4, lose/2, forget/3]).
-export_type([known/0]).

%% The rows are {Pid, N}, {N, Pid, Kept}, {Ref, N} and {{table, N}, Ref}.
-type known() :: ets:tid().

%% @doc Knows no pid and no table.
-spec new() -> known().
new() -> ets:new(?MODULE, [public, {read_concurrency, true}]).

%% @doc Returns the number of a pid or of a table's reference.
-spec number(pid() | reference(), known()) -> non_neg_integer() | none.
number(Identifier, Known) ->
    case ets:lookup(Known, Identifier) of
        [{_, N}] -> N;
        [] -> none
    end.

%% @doc Returns the number of a pid that an object may hold from now on, and keeps the pid for the number.
-spec kept(pid(), known()) -> non_neg_integer() | none.
kept(Pid, Known) ->
    case number(Pid, Known) of
        none -> none;
        N -> kept(ets:lookup(Known, N), Pid, Known)
    end.

%% The number may be forgotten at the same time. So it is looked up again after it was kept.
kept([{N, _, true}], _Pid, _Known) -> N;
kept([{N, _, false}], Pid, Known) ->
    keep(N, Known),
    kept(Pid, Known);
kept([], Pid, Known) ->
    kept(Pid, Known).

%% @doc Keeps the pid of a number.
-spec keep(non_neg_integer(), known()) -> ok.
keep(N, Known) ->
    _ = ets:update_element(Known, N, {3, true}),
    ok.

%% @doc Returns the pid with a number. Throws `forgotten' if it was forgotten.
-spec pid(non_neg_integer(), known()) -> pid().
pid(N, Known) ->
    case ets:lookup(Known, N) of
        [{_, Pid, _}] -> Pid;
        [] -> throw(forgotten)
    end.

%% @doc Returns the reference of a table's number. The first process that meets the number makes it.
-spec table(non_neg_integer(), known()) -> reference().
table(N, Known) ->
    case ets:lookup(Known, {table, N}) of
        [{_, Ref}] -> Ref;
        [] -> first_met(N, make_ref(), Known)
    end.

%% Gives a number its reference, unless another process was faster. The number of the reference is known beforehand.
first_met(N, Ref, Known) ->
    true = ets:insert(Known, {Ref, N}),
    case ets:insert_new(Known, {{table, N}, Ref}) of
        true ->
            Ref;
        false ->
            true = ets:delete(Known, Ref),
            table(N, Known)
    end.

%% @doc Gives a pid its number, and says whether it is kept.
-spec add(pid(), non_neg_integer(), Kept :: boolean(), known()) -> true.
add(Pid, N, Kept, Known) -> ets:insert(Known, [{N, Pid, Kept}, {Pid, N}]).

%% @doc Forgets the number of a pid whose connection was lost: if it comes back, it is a new process of the store.
-spec lose(pid(), known()) -> true.
lose(Pid, Known) -> ets:delete(Known, Pid).

%% @doc Forgets a process that has ended in the store, if its pid need not be kept.
-spec forget(pid(), non_neg_integer(), known()) -> ok.
forget(Pid, N, Known) ->
    case ets:select_delete(Known, [{{N, Pid, false}, [], [true]}]) of
        1 -> ets:delete_object(Known, {Pid, N});
        0 -> true
    end,
    ok.
