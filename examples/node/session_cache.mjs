// A cache of sessions {Name,User,End}: a match specification deletes those that have ended. Times are seconds, which the program
// gives itself.
import { Atom, Store, Tuple } from './yoyoash.mjs'

const store = new Store(process.argv[2])
const sessions = new Atom('sessions')

// Begins a session. Whatever `name` and `user` hold, they stay binaries.
const begin = (name, user, end) => store.call(0, 'insert', sessions, new Tuple(name, user, end))

// Prints the user and the end of a session, if it exists.
async function show(name) {
  const [session] = await store.call(0, 'lookup', sessions, name)
  if (!session) return console.log(`${name}: no session`)
  const [, user, end] = session.elements
  console.log(`${name}: user ${user}, ends at ${end}`)
}

// Deletes the sessions that ended before `now`. Returns their number.
function expire(now) {
  const pattern = new Tuple(new Atom('_'), new Atom('_'), new Atom('$1'))
  const hasEnded = new Tuple(new Atom('<'), new Atom('$1'), now)
  return store.call(0, 'select_delete', sessions, [new Tuple(pattern, [hasEnded], [true])])
}

await store.spawn(0)
await store.call(0, 'new', sessions, [new Atom('named_table')])
await Promise.all([begin('s1', 'anna', 160), begin('s2', 'ben', 170), begin('s3', '}),exit(', 300)])
await show('s1')
await show('s3')
console.log(`expired at 165: ${await expire(165)}`)
await show('s1')
await show('s2')
store.close()
