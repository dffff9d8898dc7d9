% Deletes an inherited table when its heir ends.
spawn p
spawn q
p new(t,[named_table,{heir,<0.1.0>,g}])
exit p
exit q
spawn r
r info(t,size)
r new(t,[named_table])
