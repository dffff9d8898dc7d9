% Hands the table of a process that ends to its heir, with a message.
spawn p
spawn q
p new(t,[named_table,{heir,<0.1.0>,gift}])
exit p
q receive()
q info(t,owner)
q receive()
q info(t,heir)
