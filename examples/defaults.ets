% Shows calls with a default for a missing key, and a traversal that returns each key with its objects.
spawn shop
shop new(stock,[named_table])

% Reads a missing key: the default is the reply, and nothing is inserted.
shop lookup_element(stock,pens,2,0)
shop info(stock,size)

% Writes the first price, which inserts the default with it. A second price is written into the object.
shop update_element(stock,pens,{3,12},{thing,0,none})
shop update_element(stock,pens,{3,15},{thing,0,none})
shop update_element(stock,ink,{3,80},{thing,0,none})
shop lookup(stock,pens)

% Writes without a default: a missing key replies false.
shop update_element(stock,paper,{3,5})
shop update_counter(stock,pens,{2,40})
shop lookup_element(stock,pens,2,0)

% Traverses the table with one call for each key and its objects, and deletes on the way.
shop safe_fixtable(stock,true)
shop first_lookup(stock)
shop delete(stock,pens)
shop next_lookup(stock,pens)
shop next_lookup(stock,ink)
shop safe_fixtable(stock,false)
