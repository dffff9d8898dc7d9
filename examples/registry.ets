% Shows a registry of services: an heir keeps the table when its owner ends.

% Makes two keepers. The second is the heir of the first.
spawn keeper
spawn standby
keeper new(services,[named_table,public,{heir,<0.1.0>,take_over}])

% Registers services with their process and port. A name is taken once.
spawn mail
mail insert_new(services,{mail,<0.2.0>,25})
spawn web
web insert_new(services,{web,<0.3.0>,80})
web insert_new(services,{mail,<0.3.0>,2525})

% Looks up a service, the port of one, and whether one exists.
spawn client
client lookup(services,web)
client lookup_element(services,mail,3)
client member(services,ftp)

% Ends the keeper. The heir gets the table and a message, and the objects stay as they were.
exit keeper
standby receive()
standby info(services,owner)
client lookup_element(services,web,3)

% Names a new heir, because the old one is now the owner.
spawn reserve
standby setopts(services,{heir,<0.5.0>,take_over})
standby info(services,heir)

% Ends a service, and deletes its entries by its process.
exit mail
standby match_delete(services,{'_',<0.2.0>,'_'})
client member(services,mail)

% Gives the registry away while its owner lives. The former owner can still write it, because it is public.
standby give_away(services,<0.5.0>,{planned,maintenance})
reserve receive()
standby setopts(services,{heir,none})
standby insert(services,{ftp,<0.1.0>,21})
reserve info(services,size)

% Ends the last owner. It is its own heir, so the registry and its name are deleted.
reserve info(services,heir)
exit reserve
client info(services,size)
client whereis(services)
