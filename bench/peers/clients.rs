//! Clients of one map, each in a thread of its own: nine lookups, then an insertion, and so on; or lookups alone.
use crate::order::{show, shuffled};
use crate::term::Term;
use crate::{Fnv, Key, Map, found, key, object};
use std::hash::{BuildHasher, BuildHasherDefault};
use std::hint::black_box;
use std::sync::{Mutex, RwLock};
use std::thread;
use std::time::Instant;

/// How many keys the map has.
const KEYS: u64 = 10_000;

/// How many maps with a lock each the sharded one has.
const SHARDS: usize = 16;

#[derive(Clone)]
enum Call {
    Lookup(Key),
    Insert(Key, Term),
}

/// A lookup answers a list of objects, an insertion no term.
type Reply = Option<Term>;

type Journal = Vec<(Call, Reply)>;

/// A map that threads share. A reply is a copy.
trait SharedMap: Sync {
    fn new(objects: impl Iterator<Item = (Key, Term)>) -> Self;

    fn lookup(&self, key: &Key) -> Term;

    fn insert(&self, key: Key, object: Term);
}

impl SharedMap for Mutex<Map> {
    fn new(objects: impl Iterator<Item = (Key, Term)>) -> Self {
        Mutex::new(objects.collect())
    }

    fn lookup(&self, key: &Key) -> Term {
        found(&self.lock().unwrap(), key)
    }

    fn insert(&self, key: Key, object: Term) {
        self.lock().unwrap().insert(key, object);
    }
}

impl SharedMap for RwLock<Map> {
    fn new(objects: impl Iterator<Item = (Key, Term)>) -> Self {
        RwLock::new(objects.collect())
    }

    fn lookup(&self, key: &Key) -> Term {
        found(&self.read().unwrap(), key)
    }

    fn insert(&self, key: Key, object: Term) {
        self.write().unwrap().insert(key, object);
    }
}

/// Maps with a lock each, among which a hash of the key chooses.
struct Sharded(Vec<RwLock<Map>>);

impl Sharded {
    fn shard(&self, key: &Key) -> &RwLock<Map> {
        &self.0[BuildHasherDefault::<Fnv>::default().hash_one(key) as usize % SHARDS]
    }
}

impl SharedMap for Sharded {
    fn new(objects: impl Iterator<Item = (Key, Term)>) -> Self {
        let map = Sharded((0..SHARDS).map(|_| RwLock::default()).collect());
        objects.for_each(|(key, object)| map.insert(key, object));
        map
    }

    fn lookup(&self, key: &Key) -> Term {
        self.shard(key).lookup(key)
    }

    fn insert(&self, key: Key, object: Term) {
        self.shard(&key).insert(key, object);
    }
}

fn objects() -> impl Iterator<Item = (Key, Term)> {
    (0..KEYS).map(|k| (key(k), object(k)))
}

/// A client's calls, in an order of its own: every tenth inserts, or all look up.
fn calls(client: u64, count: u64, is_mixed: bool) -> Vec<Call> {
    let call = |(at, k): (usize, u64)| {
        let k = k % KEYS;
        if is_mixed && at % 10 == 9 { Call::Insert(key(k), object(k)) } else { Call::Lookup(key(k)) }
    };
    shuffled(count, client + 1).enumerate().map(call).collect()
}

fn is_found(reply: &Reply) -> bool {
    matches!(black_box(reply), Some(Term::List(objects)) if objects.len() == 1)
}

/// Makes a call. The map stores a copy, which is made before the lock is taken.
fn ask(map: &impl SharedMap, call: &Call) -> Reply {
    match call.clone() {
        Call::Lookup(key) => Some(map.lookup(&key)),
        Call::Insert(key, object) => {
            map.insert(key, object);
            None
        }
    }
}

/// Runs a client for each list of calls, and prints nanoseconds a call of all clients together.
fn timed(who: &str, operation: &str, work: &[Vec<Call>], run: impl Fn(&[Call]) -> usize + Sync) {
    let lookups = |calls: &Vec<Call>| calls.iter().filter(|call| matches!(call, Call::Lookup(_))).count();
    let all: usize = work.iter().map(Vec::len).sum();
    let start = Instant::now();
    let found: usize = thread::scope(|scope| {
        let running: Vec<_> = work.iter().map(|calls| scope.spawn(|| run(calls))).collect();
        running.into_iter().map(|thread| thread.join().unwrap()).sum()
    });
    show(who, operation, start.elapsed().as_secs_f64() * 1e9 / all as f64);
    assert_eq!(found, work.iter().map(lookups).sum::<usize>());
}

fn by_map<M: SharedMap>(who: &str, operation: &str, work: &[Vec<Call>]) {
    let map = M::new(objects());
    timed(who, operation, work, |calls| calls.iter().filter(|call| is_found(&ask(&map, call))).count());
}

/// Clients that keep the calls and replies, as the map's journal does under its lock.
fn by_journal(work: &[Vec<Call>]) {
    let map: Map = objects().collect();
    let book = Mutex::new((map, Journal::new()));
    timed("Mutex<HashMap>,journal", "mixture", work, |calls| {
        let mut own = Journal::new();
        calls.iter().filter(|call| is_found(&ask_and_keep(&book, &mut own, call))).count()
    });
}

fn ask_and_keep(book: &Mutex<(Map, Journal)>, own: &mut Journal, call: &Call) -> Reply {
    let (asked, kept, entered) = (call.clone(), call.clone(), call.clone());
    let mut book = book.lock().unwrap();
    let reply = match asked {
        Call::Lookup(key) => Some(found(&book.0, &key)),
        Call::Insert(key, object) => {
            book.0.insert(key, object);
            None
        }
    };
    book.1.push((entered, reply.clone()));
    drop(book);
    own.push((kept, reply.clone()));
    reply
}

pub fn all(threads: u64, count: u64) {
    let work = |is_mixed| (0..threads).map(|client| calls(client, count, is_mixed)).collect::<Vec<_>>();
    for (operation, work) in [("mixture", work(true)), ("reads", work(false))] {
        by_map::<Mutex<Map>>("Mutex<HashMap>,copies", operation, &work);
        by_map::<RwLock<Map>>("RwLock<HashMap>", operation, &work);
        by_map::<Sharded>("sharded", operation, &work);
    }
    by_journal(&work(true));
}
