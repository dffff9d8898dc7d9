% Refuses to spawn a name twice.
spawn p
exit p
p new(t,[])
exit p
spawn p
