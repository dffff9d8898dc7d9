% Shows how counters and elements of objects are updated. An update is done whole or not at all.
spawn p
p new(t,[named_table])
p insert(t,[{c,5},{k,1,2}])

% Adds to the element after the key, and to an element that {Pos,Incr} names.
p update_counter(t,c,3)
p update_counter(t,c,{2,-3})

% Adds with {Pos,Incr,Threshold,SetValue}: a sum past the threshold becomes SetValue, a sum equal to it stays.
p update_counter(t,c,{2,3,7,0})
p insert(t,{c,-5})
p update_counter(t,c,{2,-3,-8,1})
p update_counter(t,c,{2,-1,-8,1})

% Refuses a list of operations because one of them would change the key. The object stays as it was.
p insert(t,{c,5})
p update_counter(t,c,[{2,1},{1,1}])
p lookup(t,c)

% Does a list of operations from the left, each on the result of the one before. Returns the list of new values.
p update_counter(t,c,[{2,1},{2,10}])
p update_counter(t,c,[])

% Refuses a sum that is out of the range of integers, also in the middle of a list. A malformed list is badarg first.
p insert(t,{c,170141183460469231731687303715884105727})
p update_counter(t,c,1)
p update_counter(t,c,[{2,1},{2,-1}])
p update_counter(t,c,[{2,1},{9,1}])
p lookup(t,c)

% Allows a sum out of that range if the threshold replaces it.
p update_counter(t,c,{2,1,170141183460469231731687303715884105727,0})

% Refuses a key without an object, or inserts the default with the key in it.
p update_counter(t,h,1)
p update_counter(t,h,{2,1},{x,10})
p lookup(t,h)

% Checks the default, whether or not it is needed.
p update_counter(t,h,[],{x,10})
p update_counter(t,h,1,{x})
p update_counter(t,h,1,x)
p update_counter(t,i,1,{x})
p update_counter(t,i,[],{x})
p lookup(t,i)

% Writes elements: the last value for a position stays.
p update_element(t,k,[{2,x},{2,y}])
p lookup(t,k)

% Replies false for a key without an object, and refuses the position of the key, or one past the end of the object.
p update_element(t,no,{9,x})
p update_element(t,no,{1,x})
p update_element(t,k,{9,x})
p update_element(t,k,[])

% Refuses counters and elements of bags.
p new(b,[named_table,bag])
p insert(b,{c,5})
p update_counter(b,c,1)
p update_element(b,c,{2,x})

% Refuses a process that may not write the table.
spawn q
q update_counter(t,c,1)
