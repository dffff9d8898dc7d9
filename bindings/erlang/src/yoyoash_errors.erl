%% @doc Explains to the shell and to `erl_error' why a call raised an error.
%%
%% The exceptions of {@link yoyoash} name this module in their `error_info', as those of `ets' name a module of stdlib.
-module(yoyoash_errors).
-export([format_error/2, cause/1]).
-export_type([cause/0]).

-type cause() :: {argument, pos_integer(), binary()} | {general, binary()} | none.

%% @doc Returns the reason, under the number of the argument that it is about, or under `general'.
-spec format_error(term(), erlang:stacktrace()) -> #{pos_integer() | general => binary()}.
format_error(_Reason, [{_Module, _Function, _Args, Info} | _]) ->
    case proplists:get_value(error_info, Info, #{}) of
        #{cause := {argument, Number, Text}} -> #{Number => Text};
        #{cause := {general, Text}} -> #{general => Text};
        _ -> #{}
    end;
format_error(_Reason, _Stacktrace) -> #{}.

%% @doc Reads a reason as the store writes it, such as `argument 1: no such table'.
-spec cause(binary()) -> cause().
cause(<<>>) -> none;
cause(<<"argument ", Rest/binary>> = Reason) ->
    case binary:split(Rest, <<": ">>) of
        [Number, Text] -> {argument, binary_to_integer(Number), Text};
        [_] -> {general, Reason}
    end;
cause(Reason) -> {general, Reason}.
