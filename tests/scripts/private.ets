% Refuses other processes every access to a private table, except its properties.
spawn p
spawn q
p new(t,[named_table,private])
p insert(t,{a,1})
q lookup(t,a)
q insert(t,{a,2})
q tab2list(t)
q delete(t)
q info(t,protection)
q info(t,size)
q whereis(t)
p lookup(t,a)
p delete(t)
