% Allows two processes and two tables ever; those that have ended count.
spawn p
spawn q
spawn r
r receive()
exit q
spawn r
spawn p
p new(t,[named_table])
p new(x,[])
p new(t,[named_table])
p new(u,[named_table])
p whereis(u)
p delete(t)
p new(t,[named_table])
q receive()
