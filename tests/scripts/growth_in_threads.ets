% Ignores growth lines with --threads, where tables grow by themselves, and reports malformed ones first.
spawn p
p new(t,[named_table])
grow t
ready t 99
grow u
grow
p foo(t)
exit q
