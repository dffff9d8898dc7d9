% Shows a routing table in a bag. A route is {Net,Hop,Cost}, and a net has several, oldest first.
spawn router
router new(routes,[named_table,bag])
router insert(routes,[{net_a,hop1,10},{net_a,hop2,20},{net_b,hop1,5}])

% Inserts a route that is there already, which changes nothing, and one with another cost.
router insert(routes,{net_a,hop1,10})
router insert(routes,{net_a,hop1,15})
router lookup(routes,net_a)

% Lists the hops of a net, and those that cost less than 18.
router lookup_element(routes,net_a,2)
router select(routes,[{{net_a,'$1','$2'},[{'<','$2',18}],['$1']}])

% Deletes one route.
router delete_object(routes,{net_a,hop1,15})
router lookup(routes,net_a)

% Deletes all routes over a hop.
router match_delete(routes,{'_',hop1,'_'})
router lookup(routes,net_a)
router member(routes,net_b)

% Inserts routes only if none of their nets has any. It is done for all of them or for none.
router insert_new(routes,[{net_b,hop2,7},{net_b,hop3,9}])
router insert_new(routes,[{net_b,hop4,1},{net_c,hop4,1}])
router member(routes,net_c)

% Counts the routes over a hop, then deletes those of them that cost more than 10.
router select_count(routes,[{{'_',hop2,'_'},[],[true]}])
router select_delete(routes,[{{'_',hop2,'$1'},[{'>','$1',10}],[true]}])
router member(routes,net_a)

% Refuses a counter, because the table is a bag.
router update_counter(routes,net_b,{3,1})

% Takes a net out with all its routes.
router take(routes,net_b)
router info(routes,size)
