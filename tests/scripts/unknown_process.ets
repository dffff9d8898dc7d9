% Calls from a name that was never spawned.
p lookup(t,a)
