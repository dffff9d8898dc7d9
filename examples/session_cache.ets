% Shows a cache of sessions {Key,User,End,Requests}. The times are seconds, which the script gives itself.
spawn cache
cache new(sessions,[named_table])
cache new(counts,[named_table])

% Begins three sessions.
cache insert_new(sessions,{s1,anna,160,0})
cache insert_new(sessions,{s2,ben,170,0})
cache insert_new(sessions,{s3,anna,300,0})

% Counts two requests, in the session and in the sum of all. The sum begins with its default.
cache update_counter(sessions,s1,{4,1})
cache update_counter(counts,found,1,{found,0})
cache update_counter(sessions,s1,{4,1})
cache update_counter(counts,found,1,{found,0})

% Counts a request for a session that does not exist.
cache update_counter(sessions,s9,{4,1})
cache update_counter(counts,missed,1,{missed,0})

% Counts a request and moves the end in the same call. An end past 400 becomes 400.
cache update_counter(sessions,s2,[{4,1},{3,60,400,400}])
cache update_counter(sessions,s2,[{4,1},{3,300,400,400}])
cache lookup(sessions,s2)

% Counts the sessions that have ended at second 165, then deletes them.
cache select_count(sessions,[{{'_','_','$1','_'},[{'<','$1',165}],[true]}])
cache select_delete(sessions,[{{'_','_','$1','_'},[{'<','$1',165}],[true]}])
cache member(sessions,s1)
cache info(sessions,size)

% Finds the user of each session with at least two requests, and the sessions of anna.
cache select(sessions,[{{'_','$1','_','$2'},[{'>=','$2',2}],[{{'$1','$2'}}]}])
cache match(sessions,{'$1',anna,'_','_'})

% Deletes all sessions of anna.
cache match_delete(sessions,{'_',anna,'_','_'})
cache tab2list(sessions)

% Renames ben and sets his requests to 0, in one call.
cache update_element(sessions,s2,[{2,benjamin},{4,0}])
cache take(sessions,s2)

% Reads what was counted.
cache lookup(counts,found)
cache lookup(counts,missed)
