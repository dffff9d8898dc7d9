% Shows the replies to bad lines. A syntax fault has its position, in bytes from 0. No bad line changes anything.
spawn p
p new(t,[named_table])

% Breaks off or spoils a term.
p insert(t,{a,1)
p insert(t,{a,1}
p insert(t,{a,1|2})
p insert(t,170141183460469231731687303715884105728)

% Spoils the form of a call or a command.
p lookup t,a)
P lookup(t,a)
p lookup(t,a) x
spawn

% Uses names and tables that do not exist, or exist already.
spawn p
exit nobody
grow u

% Prepares a bucket that does not exist, which changes nothing. A number of a bucket is below 4294967296.
ready t 99
ready t 4294967296

% Finds the table still empty.
p lookup(t,a)
