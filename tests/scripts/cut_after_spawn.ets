% Cuts the last line, which has no line feed, before the name of the process.
spawn 