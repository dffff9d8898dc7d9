% Keeps an object once in a bag, and each instance in a duplicate bag.
spawn p
p new(b,[named_table,bag])
p new(d,[duplicate_bag,named_table])
p insert(b,[{a,1},{a,2},{a,1}])
p insert(d,[{a,1},{a,2},{a,1}])
p lookup(b,a)
p lookup(d,a)
p insert_new(d,{a,3})
p lookup(d,a)
% Inserts the same objects one by one.
p delete(b,a)
p insert(b,{a,1})
p insert(b,{a,2})
p insert(b,{a,1})
p lookup(b,a)
