% Shows a traversal that deletes keys while another process inserts and deletes. Keys come in the order of their
% insertion, until one is deleted.
spawn walker
spawn other
walker new(jobs,[named_table,public])
walker insert(jobs,[{j1,open},{j2,done},{j3,open},{j4,done}])

% Fixes the table. From now on a deleted key keeps its place.
walker safe_fixtable(jobs,true)
walker first(jobs)
walker next(jobs,j1)

% Deletes the second job, and continues from its place.
walker delete(jobs,j2)
walker next(jobs,j2)

% Deletes, by the other process, the last key that was returned and the one after it. The traversal would end here.
other delete(jobs,j3)
other delete(jobs,j4)
walker next(jobs,j3)

% Inserts a key after that place, and grows the table. The traversal finds the key.
other insert(jobs,{j5,open})
grow jobs
ready jobs 1
walker next(jobs,j3)
walker next(jobs,j4)

% Inserts a deleted key again. It has its old place, which the traversal has passed.
other insert(jobs,{j3,again})
walker next(jobs,j2)
walker next(jobs,j5)

% Releases the table. The places of deleted keys are gone, so no traversal can continue from them.
walker info(jobs,fixed)
walker safe_fixtable(jobs,false)
walker next(jobs,j2)
walker next(jobs,j1)
walker info(jobs,size)
