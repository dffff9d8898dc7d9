%% @doc Has the store inside this node, by the library `libyoyoash', if the NIF was built: c_src/build.
%%
%% A mistake in the NIF would end the whole node, not only the store. A store is freed when the process that opened it ends.
-module(yoyoash_nif).
-export([is_loaded/0, open/4, close/1, ask/4, ask_long/4]).
-export_type([handle/0]).
-on_load(load/0).

-opaque handle() :: reference().

%% The NIF is in the folder `priv' beside the folder `ebin' of this module. In a folder of another name nothing is loaded.
load() -> load(code:which(?MODULE)).

load([_ | _] = File) ->
    Folder = filename:dirname(File),
    _ = filename:basename(Folder) =:= "ebin" andalso
        erlang:load_nif(filename:join([filename:dirname(Folder), "priv", "yoyoash_nif"]), 0),
    ok;
load(_NoFile) -> ok.

%% @doc Says whether the NIF was loaded.
-spec is_loaded() -> boolean().
is_loaded() -> false.

%% @doc Opens a store for this process, with the limits of processes, tables, and objects in one table, and the seed of its
%% hash. A random seed is drawn from the system; `no_seed' says that the system gave none.
-spec open(non_neg_integer(), non_neg_integer(), non_neg_integer(), non_neg_integer() | random) ->
    {ok, handle()} | {error, enomem | no_seed}.
open(_Processes, _Tables, _Objects, _Seed) -> erlang:nif_error(not_loaded).

%% @doc Closes a store. The end of the process that opened it does the same.
-spec close(handle()) -> ok.
close(_Handle) -> erlang:nif_error(not_loaded).

%% @doc Answers a request as the program does: kind 0 spawns a process, 1 ends it, 2 makes the call that the bytes are.
%% Returns `busy' if another request has the store for long.
-spec ask(handle(), 0..2, non_neg_integer(), binary()) -> binary() | busy.
ask(_Handle, _Kind, _Pid, _Bytes) -> erlang:nif_error(not_loaded).

%% @doc Answers a request that may take long, by a dirty scheduler.
-spec ask_long(handle(), 0..2, non_neg_integer(), binary()) -> binary() | busy.
ask_long(_Handle, _Kind, _Pid, _Bytes) -> erlang:nif_error(not_loaded).
