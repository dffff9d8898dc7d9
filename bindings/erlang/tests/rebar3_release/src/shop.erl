%% An application with two stores: that of the application yoyoash, which starts before it, and `baskets', its own.
-module(shop).
-behaviour(application).
-behaviour(supervisor).
-export([start/2, stop/1, init/1, show/0]).

start(_Type, _Args) -> supervisor:start_link({local, ?MODULE}, ?MODULE, []).

stop(_State) -> ok.

init([]) -> {ok, {#{strategy => rest_for_one}, [yoyoash:child_spec(#{name => baskets})]}}.

%% Prints where the store is, and what two tables of one name have, each in a store of its own.
show() ->
    prices = yoyoash:new(prices, [named_table]),
    prices = yoyoash:call(baskets, new, [prices, [named_table]]),
    true = yoyoash:insert(prices, {apple, 30}),
    Kind = case yoyoash_nif:is_loaded() of true -> nif; false -> port end,
    Limit = try yoyoash:insert(prices, [{N} || N <- lists:seq(1, 1000)]) catch error:Reason -> Reason end,
    io:format("~p: ~p ~p ~p~n", [Kind, yoyoash:tab2list(prices), yoyoash:call(baskets, tab2list, [prices]), Limit]),
    halt(0).
