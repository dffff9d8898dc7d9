% Shows sets, bags and duplicate bags, and the position of the key.
spawn p

% Keeps equal objects in a duplicate bag, and takes both.
p new(d,[named_table,duplicate_bag])
p insert(d,[{a,1},{a,1}])
p take(d,a)
p member(d,a)

% Reads an element of each object of a bag. Refuses a position past the end, and a term that is not an object.
p new(b,[named_table,bag])
p insert(b,[{a,1},{a,2}])
p lookup_element(b,a,2)
p lookup_element(b,a,3)
p delete_object(b,a)

% Inserts into a set only if no key has an object yet: the last object of a key wins.
p new(s,[named_table])
p insert_new(s,[])
p insert_new(s,[{a,1},{a,2}])
p lookup(s,a)

% Refuses a list because one term is not an object: none of it is inserted.
p insert(s,[{b,1},c])
p tab2list(s)

% Uses the second element as the key.
p new(k,[named_table,{keypos,2}])
p insert(k,{a})
p insert(k,{a,b})
p lookup(k,b)
p new(u,[{keypos,0}])
