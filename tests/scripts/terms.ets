% Prints each term in its one form.
spawn p
p new(t,[named_table])
p insert(t,{'A b',<<"hi">>,"ab",-0})
p lookup(t,'A b')
