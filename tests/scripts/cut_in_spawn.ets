% Cuts the last line, which has no line feed, in its first word.
spaw