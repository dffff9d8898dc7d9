% Deletes the tables of a process that ends.
spawn p
spawn q
p new(t,[public,named_table])
q new(u,[public])
p new(v,[public])
q insert(t,{a,1})
exit p
q lookup(t,a)
q insert(#Tid<0>,{a,1})
q insert(#Tid<2>,{a,1})
q insert(#Tid<1>,{a,1})
q new(t,[named_table])
q tab2list(#Tid<3>)
