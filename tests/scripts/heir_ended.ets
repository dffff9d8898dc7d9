% Deletes a table whose heir has ended before.
spawn p
spawn q
p new(t,[named_table,{heir,<0.1.0>,gift}])
p new(u,[named_table,{heir,<0.0.0>,gift}])
exit q
exit p
spawn r
r info(t,size)
r info(u,size)
