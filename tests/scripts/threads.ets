% Prints the name of the process before each reply, with --threads.
spawn p
p new(t,[named_table])
p insert(t,{a,1})
p lookup(t,a)
