// A registry {Name,Pid,Port} of services. Its owner ends, and the heir gets the table and a message; the entries stay.
import { Atom, Pid, Refused, Status, Store, Tuple } from './yoyoash.mjs'

// The processes, by their numbers in the store.
const [KEEPER, STANDBY, MAIL, WEB] = [0, 1, 2, 3]
const store = new Store(process.argv[2])
const services = new Atom('services')

// Registers a process under a name. A name is taken once.
async function enter(pid, name, port) {
  const isNew = await store.call(pid, 'insert_new', services, new Tuple(name, new Pid(pid), port))
  console.log(`${name} by process ${pid}: ${isNew ? 'registered' : 'the name is taken'}`)
}

// Prints the port of a service.
async function portOf(name) {
  try {
    const port = await store.call(WEB, 'lookup_element', services, name, 3, new Atom('none'))
    console.log(`port of ${name}: ${port instanceof Atom ? 'not registered' : port}`)
  } catch (fault) {
    if (!(fault instanceof Refused && fault.status === Status.BADARG)) throw fault
    console.log(`port of ${name}: the registry is gone`)
  }
}

// Prints the messages of the standby: {'ETS-TRANSFER',Table,From,Data} for each table that it got.
async function receive() {
  for (const { elements } of await store.call(STANDBY, 'receive')) {
    const [, table, from, data] = elements
    console.log(`process ${STANDBY} got ${table.name} from process ${from.number}: ${data.name}`)
  }
}

await Promise.all([KEEPER, STANDBY, MAIL, WEB].map((pid) => store.spawn(pid)))
const heir = new Tuple(new Atom('heir'), new Pid(STANDBY), new Atom('take_over'))
await store.call(KEEPER, 'new', services, [new Atom('named_table'), new Atom('public'), heir])
await enter(MAIL, 'mail', 25)
await enter(WEB, 'web', 80)
await enter(WEB, 'mail', 2525)
await store.exit(KEEPER)
await receive()
await portOf('mail')
await portOf('ftp')
await store.exit(STANDBY)
await portOf('mail')
store.close()
