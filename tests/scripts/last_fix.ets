% Keeps a table fixed until its last fix is released or its process ends.
spawn p
spawn q
p new(t,[named_table,public])
p insert(t,{a,1})
p info(t,fixed)
p safe_fixtable(t,true)
q safe_fixtable(t,true)
p delete(t,a)
exit q
p next(t,a)
p info(t,fixed)
p safe_fixtable(t,false)
p next(t,a)
p info(t,fixed)
p safe_fixtable(t,false)
