% Shows patterns and match specifications. docs/match-specifications.md describes the language.
spawn p
p new(t,[named_table])
p insert(t,[{a,1},{b,2},{c,3},{x,x}])

% Matches any term by '_' and by a variable. The same variable matches the same term.
p match(t,{'$1','$1'})
p match(t,{b,'$2'})
p match_object(t,{'_',3})
p match(t,5)
p delete(t,x)

% Lists bindings in the order of the variables' numbers.
p insert(t,{y,z})
p match(t,{'$2',z})
p match_object(t,{y,'$0'})

% Deletes what matches. It replies true even if nothing does.
p match_delete(t,{y,'_'})
p match_delete(t,{no,'_'})

% Uses the first clause whose head matches and whose conditions are all true. The last expression of its body counts.
p select(t,[{{a,'$1'},[{'>','$1',0}],['$$']}])
p select(t,[{{b,'$1'},[],[{{'$1','$_'}}]}])
p select(t,[{{'$1','_'},[{'=:=','$1',a}],[first]},{{a,'_'},[],[second]}])

% Fails in a condition, which then does not hold, and in a body, which then gives 'EXIT'.
p select(t,[{{'$1','$2'},[{'div','$2',0}],['$$']}])
p select(t,[{'_',[],[{hd,[]}]}])

% Counts the objects whose result is true, and deletes those alone.
p select_count(t,[{{'_','$1'},[{'>','$1',1}],[true]}])
p select_delete(t,[{{'_','$1'},[],['$1']}])
p select_delete(t,[{{'_','$1'},[{'>','$1',1}],[true]}])
p tab2list(t)

% Refuses malformed specifications and patterns, whatever the table holds.
p select(t,[])
p select(t,[{'$1',[],['$2']}])
p select_count(t,[{'_',[{foo,1}],[true]}])
p select_delete(t,[{'_',[],[]}])
p match_delete(t,[a])

% Returns '$01', which is an ordinary atom and not a variable.
p select(t,[{'_',[],['$01']}])

% Computes without wrapping. A result out of the range of integers fails.
p select(t,[{'_',[],[{'rem',-170141183460469231731687303715884105728,-1}]}])
p select(t,[{'_',[],[{'div',-170141183460469231731687303715884105728,-1}]}])

% Stops andalso at the first false. The connective `and` evaluates all its arguments.
p select(t,[{'_',[],[{'andalso',false,{hd,[]}}]}])
p select(t,[{'_',[],[{'and',false,{hd,[]}}]}])

% Lets another process read a protected table, and delete nothing in it.
spawn q
q select_count(t,[{'_',[],[true]}])
q match_delete(t,'_')
q select_delete(t,[{'_',[],[true]}])
