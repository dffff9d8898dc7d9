% Cuts the last line, which has no line feed, in a tuple.
p insert(t,{a