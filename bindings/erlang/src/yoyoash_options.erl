%% @doc Checks the options of a store, and takes what they leave out from the environment of the application.
-module(yoyoash_options).
-export([complete/1]).
-export_type([complete/0, error/0]).

-type complete() :: #{
    name := atom(),
    max_processes := non_neg_integer(),
    max_tables := non_neg_integer(),
    max_objects := non_neg_integer(),
    seed := non_neg_integer() | random,
    grace := non_neg_integer(),
    backend => port | nif,
    program => file:filename_all()
}.
-type error() :: {unknown_option, term()} | {bad_option, atom(), term()}.

%% The greatest limit. It costs nothing until it is used, and a number of a process or a table is never used again.
-define(MOST, 4_294_967_295).

%% @doc Completes options, or names one that is unknown or has a value that it cannot have.
-spec complete(yoyoash:options()) -> {ok, complete()} | {error, error()}.
complete(Options) ->
    Set = maps:merge(from_environment(), Options),
    case lists:filter(fun({Key, Value}) -> not is_option(Key, Value) end, maps:to_list(Set)) of
        [] -> {ok, maps:merge(defaults(), Set)};
        [{Key, Value} | _] -> {error, fault(lists:member(Key, keys()), Key, Value)}
    end.

fault(true, Key, Value) -> {bad_option, Key, Value};
fault(false, Key, _Value) -> {unknown_option, Key}.

%% All stores of the node have the environment in common, so it has no name. yoyoash_program looks for the program.
from_environment() ->
    Keys = [args | keys()] -- [name, program],
    maps:from_list([{Key, Value} || Key <- Keys, {ok, Value} <- [application:get_env(yoyoash, Key)]]).

keys() -> [name, backend, program, max_processes, max_tables, max_objects, seed, grace].

defaults() ->
    #{name => yoyoash, max_processes => ?MOST, max_tables => ?MOST, max_objects => ?MOST, seed => random, grace => 0}.

is_option(name, Name) -> is_atom(Name) andalso Name =/= undefined;
is_option(backend, Backend) -> lists:member(Backend, [port, nif]);
is_option(program, Program) -> is_binary(Program) orelse io_lib:char_list(Program);
is_option(seed, Seed) -> Seed =:= random orelse (is_number(Seed, ?MOST) andalso Seed > 0);
is_option(Limit, Value) when Limit =:= max_processes; Limit =:= max_tables; Limit =:= max_objects; Limit =:= grace ->
    is_number(Value, ?MOST);
is_option(_Unknown, _Value) -> false.

is_number(N, Most) -> is_integer(N) andalso N >= 0 andalso N =< Most.
