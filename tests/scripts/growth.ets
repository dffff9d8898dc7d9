% Grows a table, which changes no reply.
spawn p
p new(t,[named_table])
p insert(t,{a,1})
grow t
ready t 1
ready t 99
grow u
p lookup(t,a)
p foo(t)
