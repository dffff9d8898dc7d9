% Keeps the place of a deleted key while the table is fixed.
spawn p
p new(t,[named_table])
p first(t)
p insert(t,{a,1})
p safe_fixtable(t,true)
p first(t)
p delete(t,a)
p first(t)
p next(t,a)
p safe_fixtable(t,false)
p next(t,a)
