% Cuts the last line, which has no line feed, before its closing bracket.
p lookup(t,a