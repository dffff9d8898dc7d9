% Finds every instance in a duplicate bag.
spawn p
p new(d,[named_table,duplicate_bag])
p insert(d,[{a,1},{a,2},{a,1},{b,1}])
p match(d,{a,'$1'})
p select(d,[{{b,'$1'},[],['$1']}])
p select_delete(d,[{{a,1},[],[true]}])
p lookup(d,a)
p lookup(d,b)
p info(d,size)
p match_delete(d,{a,'_'})
p tab2list(d)
