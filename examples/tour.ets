% Shows the script language. Lines that begin with % are comments; they and empty lines print nothing.

% Makes a process with a name of this script, and prints its identifier.
spawn anna

% Makes a table with the name prices. An object is a tuple, and its first element is the key.
anna new(prices,[named_table])
anna insert(prices,{apple,30})
anna insert(prices,{'Golden Delicious',{45,[sweet,yellow]}})
anna lookup(prices,'Golden Delicious')

% Replaces an object: a set has one object for each key.
anna insert(prices,{apple,35})
anna lookup(prices,apple)
anna lookup(prices,pear)

% Reads a table of another process. A table is protected by default, so only its owner writes it.
spawn ben
ben lookup(prices,apple)
ben insert(prices,{apple,1})

% Makes a table without a name, which calls know by its identifier, and a public one, which every process may write.
ben new(log,[public])
ben new(votes,[public,named_table])
anna insert(votes,{anna,yes})
ben lookup(votes,anna)

% Requests growth by hand, which no script needs. It changes no reply.
grow prices
ready prices 1
ben lookup(prices,apple)

% Makes mistakes. A refused line changes nothing, and a syntax fault has its position.
anna insert(prices,apple)
anna melt(prices)
carl lookup(prices,apple)
anna lookup(prices,[apple)

% Ends a process, and its tables with it.
exit anna
ben lookup(prices,apple)
ben lookup(votes,anna)
exit anna
anna lookup(votes,anna)
