% Finds the one table that has a name.
spawn p
spawn q
p new(t,[named_table,public])
q whereis(t)
q whereis(u)
q whereis(#Tid<0>)
q whereis([t])
q delete(t)
p insert(#Tid<0>,{a,1})
p delete(t)
q new(t,[named_table])
p whereis(t)
