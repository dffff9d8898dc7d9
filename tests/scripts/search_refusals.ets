% Refuses searches that are malformed, without rights, or on missing tables.
spawn p
spawn q
p new(t,[named_table])
p select(t,[])
p select_count(t,x)
p select_delete(t,[{'_',[],[]}])
p insert(t,{a,1})
p select(t,[{'$1',[],['$2']}])
p select_count(t,[{'_',[{foo,1}],[true]}])
p select_delete(t,[{'_',[],[true]},x])
p select(u,[{'_',[],[true]}])
q match(t,{'$1','_'})
q match_object(t,{a,'_'})
q select_count(t,[{'_',[],[true]}])
q match_delete(t,'_')
q select_delete(t,[{'_',[],[true]}])
p tab2list(t)
