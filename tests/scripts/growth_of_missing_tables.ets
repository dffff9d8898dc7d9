% Refuses to grow a table that does not exist.
spawn p
grow #Tid<0>
ready #Tid<0> 1
p new(t,[heap])
p new(t,[])
p insert(#Tid<0>,{a,1})
grow #Tid<0>
ready #Tid<0> 1
ready #Tid<0> 4294967295
p lookup(#Tid<0>,a)
grow #Tid<1>
exit p
ready #Tid<0> 1
