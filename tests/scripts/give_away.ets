% Gives a table to another process, which gets a message.
spawn p
spawn q
p new(x,[])
p give_away(#Tid<0>,<0.2.0>,g)
p give_away(#Tid<0>,1,g)
q give_away(#Tid<0>,<0.1.0>,g)
p give_away(#Tid<1>,<0.1.0>,g)
p give_away(#Tid<0>,<0.1.0>,g)
q receive()
p insert(#Tid<0>,{a,1})
q insert(#Tid<0>,{a,1})
p lookup(#Tid<0>,a)
p whereis(x)
exit p
q lookup(#Tid<0>,a)
q give_away(#Tid<0>,<0.0.0>,g)
p receive()
