% Grows a table between calls, also while it is fixed.
spawn p
p new(t,[])
p insert(#Tid<0>,[{1,a},{2,b},{3,c},{4,d}])
grow #Tid<0>
grow #Tid<0>
grow #Tid<0>
ready #Tid<0> 13
p delete(#Tid<0>,2)
ready #Tid<0> 16
ready #Tid<0> 7
p lookup(#Tid<0>,1)
p safe_fixtable(#Tid<0>,true)
p delete(#Tid<0>,3)
ready #Tid<0> 1
grow #Tid<0>
p insert(#Tid<0>,{5,e})
ready #Tid<0> 31
p member(#Tid<0>,3)
p safe_fixtable(#Tid<0>,false)
p next(#Tid<0>,3)
p lookup(#Tid<0>,1)
p lookup(#Tid<0>,4)
p lookup(#Tid<0>,5)
p info(#Tid<0>,size)
