% Shows 57 misuses, one a line. Run it with `--why` to see the reasons; tests/program/reasons.txt has them too.
spawn p
spawn q
p new(t,[named_table])
p new(own,[named_table,private])
p insert(t,{a,x})

% Misuses tables and their objects.
p insert(nosuch,{a,1})
q lookup(own,a)
q insert(t,{b,1})
q setopts(t,{heir,none})
p insert(t,a)
p insert(t,{})
p lookup_element(t,zz,2)
p lookup_element(t,a,5)
p lookup_element(t,a,0)
p update_counter(t,zz,1)
p update_counter(t,a,1)
p update_counter(t,a,{1,1})
p update_element(t,a,{3,y})
p new(t,[named_table])
p new(u,[seet])
p new(17,[])
p select(t,notaspec)
p match(t,17)
p next(t,zz)
p info(t,foo)
p give_away(t,<0.0.0>,g)
p give_away(t,<0.7.0>,g)
p safe_fixtable(t,yes)
p lokup(t,a)
p lookup(t)
p whereis([t])
grow nosuch
ready nosuch 1

% Misuses processes.
spawn p
exit r
r lookup(t,a)
exit q
exit q
q lookup(t,a)

% Misuses the language.
p insert(t,{a,1}).
p lookup(t,a) % x
p lookup(t,a) p lookup(t,b)
p insert(t,{a,1.5})
p insert(t,#{x=>1})
p lookup(t,Foo)
p lookup(t,_)
p lookup(t,#Ref<0.1.2.3>)
p lookup(t,$x)
p insert(t,{16#ff})
p insert(t,{[x|y]})
p insert(t,{+1})
p insert(t,{'a\n'})
p insert(t,{a;b})
p insert(t,{170141183460469231731687303715884105728})
p insert(t,{a
p insert(t,'a
p insert(t
p lookup
Foo lookup(t,a)
ets:lookup(t,a)
p lookup t,a
ready t 4294967296
#!/usr/bin/env ets_script
