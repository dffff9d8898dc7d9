%% @doc Proposes simpler calls in the place of one: fewer elements in lists, smaller numbers, and the process `main'.
-module(yoyoash_diff_simple).
-export([calls/1]).

%% Only the first elements of a list are left out one by one.
-define(MOST, 20).

%% @doc Returns calls that are each one step simpler.
-spec calls(yoyoash_diff:call()) -> [yoyoash_diff:call()].
calls({exit, Process}) when is_atom(Process) -> [];
calls({Name, Args}) -> [{Name, Simple} || Simple <- elements(Args)];
calls({main, Name, Args}) -> [{Name, Args}];
calls({Process, Name, Args}) -> [{Name, Args} | [{Process, Name, Simple} || Simple <- elements(Args)]].

%% Makes one element simpler.
elements(List) ->
    [
        lists:sublist(List, N - 1) ++ [Simple | lists:nthtail(N, List)]
     || N <- lists:seq(1, min(?MOST, length(List))), Simple <- terms(lists:nth(N, List))
    ].

terms(0) -> [];
terms(Int) when is_integer(Int) -> lists:usort([0, Int div 2]);
terms(<<>>) -> [];
terms(Binary) when is_binary(Binary) -> [<<>>];
terms(Tuple) when is_tuple(Tuple) -> [list_to_tuple(Simple) || Simple <- elements(tuple_to_list(Tuple))];
terms([Head | Tail] = List) ->
    try length(Tail) of
        _ -> shorter(List) ++ elements(List)
    catch
        error:badarg -> [Head]
    end;
terms(_Other) -> [].

%% Leaves one element out.
shorter(List) -> [lists:sublist(List, N - 1) ++ lists:nthtail(N, List) || N <- lists:seq(1, min(?MOST, length(List)))].
