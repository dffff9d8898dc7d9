% Prints the offset of the first syntax error.
p f([a,
p insert(t,{a,1|2})
p insert(t,{a,1.5})
p insert(t,170141183460469231731687303715884105728)
