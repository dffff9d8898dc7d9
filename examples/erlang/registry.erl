%% A registry {Name,Pid,Port} of services. Its owner ends, and the heir gets the table and a message; the entries stay.
-module(registry).
-export([keep/1, register/2, find/1, main/0]).

%% Runs the keeper: it makes the table, and is ended by a message. The table then goes to the heir.
keep(Heir) ->
    services = yoyoash:new(services, [named_table, public, {heir, Heir, take_over}]),
    Heir ! {kept_by, self()},
    receive stop -> ok end.

%% Registers this process under a name, which is taken once.
register(Name, Port) ->
    case yoyoash:insert_new(services, {Name, self(), Port}) of
        true -> registered;
        false -> taken
    end.

%% Returns the port of a service. An error of the call is a registry that is gone.
find(Name) ->
    try yoyoash:lookup_element(services, Name, 3, none) of
        none -> none;
        Port -> {ok, Port}
    catch
        error:badarg -> gone
    end.

main() ->
    {ok, _} = yoyoash:start(),
    Standby = self(),
    {Keeper, Ref} = spawn_monitor(fun() -> keep(Standby) end),
    receive {kept_by, Keeper} -> ok end,
    [io:format("~p: ~p~n", [Name, ?MODULE:register(Name, Port)]) || {Name, Port} <- [{mail, 25}, {web, 80}, {mail, 2525}]],
    Keeper ! stop,
    receive {'DOWN', Ref, process, Keeper, normal} -> ok end,
    receive {'ETS-TRANSFER', services, Keeper, take_over} -> io:format("the heir got the registry~n") end,
    io:format("mail: ~p, ftp: ~p~n", [find(mail), find(ftp)]),
    true = yoyoash:delete(services),
    io:format("after its end: ~p~n", [find(mail)]),
    ok = yoyoash:stop().
