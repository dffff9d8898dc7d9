% Sets the heir of a table; the last option counts.
spawn p
spawn q
p new(t,[named_table])
p setopts(t,[{heir,<0.1.0>,a},{heir,none}])
p info(t,heir)
p setopts(t,{heir,<0.1.0>,a})
q setopts(t,[])
p setopts(t,{heir,<0.1.0>})
p setopts(t,[{heir,none},public])
p info(t,heir)
p setopts(t,[])
p give_away(t,<0.0.0>,g)
p delete(t)
p whereis(t)
