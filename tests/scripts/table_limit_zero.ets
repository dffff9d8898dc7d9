% Refuses every table with a limit of zero, and runs all other calls.
spawn p
spawn q
p new(t,[named_table])
p whereis(t)
q new(u,[])
p insert(t,{a})
exit p
q receive()
