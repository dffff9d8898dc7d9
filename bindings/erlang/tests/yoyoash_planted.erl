%% The module `ets' with faults, as the reference of a comparison: an object of three elements is not deleted, and the heir of
%% a table is not set later.
-module(yoyoash_planted).
-export([delete_object/2, setopts/2, '$handle_undefined_function'/2]).

-spec delete_object(ets:table(), tuple()) -> true.
delete_object(_Table, {_, _, _}) -> true;
delete_object(Table, Object) -> ets:delete_object(Table, Object).

-spec setopts(ets:table(), term()) -> true.
setopts(_Table, _Options) -> true.

%% Does all other calls.
-spec '$handle_undefined_function'(atom(), [term()]) -> term().
'$handle_undefined_function'(Name, Args) -> apply(ets, Name, Args).
