% Refuses a process past the limit before any process runs, and a table past the limit when it is created.
spawn q
q new(t,[named_table])
spawn p
q new(u,[named_table])
p receive()
