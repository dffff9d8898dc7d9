% Returns the default for a key without objects.
spawn p
p new(t,[named_table])
p new(b,[named_table,bag])
p insert(t,{k,1})
p insert(b,[{k,1},{k,2,3}])
p lookup_element(t,k,2,none)
p lookup_element(b,k,2,none)
p lookup_element(t,z,2,none)
p lookup_element(b,z,2,[{none}])
% Refuses a position past the object, where the key has one.
p lookup_element(t,k,3,none)
p lookup_element(b,k,3,none)
p lookup_element(t,z,9,none)
% Refuses a position below 1, with or without the key.
p lookup_element(t,z,0,none)
p lookup_element(t,z,-1,none)
p lookup_element(t,z,x,none)
p lookup_element(t,k,0,none)
p lookup_element(u,k,2,none)
% Finds no objects of a tombstone.
p safe_fixtable(t,true)
p delete(t,k)
p lookup_element(t,k,2,none)
p lookup_element(t,k,2)
