// A limit of 100 requests for each client in a window of time. Four processes of the store count at once: update_counter adds 1
// and returns the new count in one step, so no two requests get the same count.
import { Atom, Store, Tuple } from './yoyoash.mjs'

const PROCESSES = [0, 1, 2, 3]
const REQUESTS = 50
const MOST = 100
const store = new Store(process.argv[2])
const counts = new Atom('counts')

// Counts a request of a client in a window. Returns the count.
const count = (pid, client, window) =>
  store.call(pid, 'update_counter', counts, new Tuple(client, window), new Tuple(2, 1), new Tuple(new Atom('none'), 0))

await Promise.all(PROCESSES.map((pid) => store.spawn(pid)))
await store.call(0, 'new', counts, [new Atom('named_table'), new Atom('public')])
const sent = PROCESSES.flatMap((pid) => Array.from({ length: REQUESTS }, () => count(pid, '10.0.0.7', 1)))
const counted = await Promise.all(sent)
const allowed = counted.filter((it) => it <= MOST).length
console.log(`${PROCESSES.length} processes sent ${counted.length} requests: ${allowed} allowed, ${counted.length - allowed} refused`)
console.log(`the next window begins with count ${await count(0, '10.0.0.7', 2)}`)
store.close()
