% Releases one fix a call, and none of another process.
spawn p
spawn q
p new(t,[named_table])
p insert(t,{a,1})
p safe_fixtable(t,true)
p safe_fixtable(t,true)
p take(t,a)
q safe_fixtable(t,false)
p safe_fixtable(t,false)
q next(t,a)
p safe_fixtable(t,false)
q next(t,a)
p info(t,size)
