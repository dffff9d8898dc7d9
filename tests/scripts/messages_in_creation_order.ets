% Sends transfer messages in the order in which the tables were created.
spawn p
spawn q
p new(b,[{heir,<0.1.0>,second}])
p new(a,[named_table,{heir,<0.1.0>,first}])
p new(c,[])
p give_away(#Tid<2>,<0.1.0>,third)
exit p
q receive()
