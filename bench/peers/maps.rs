//! Rust's own hash map, as a peer of the store's tables and calls: maps PART COUNT [CALLS].
//!
//! Prints a line for each figure: WHO OPERATION FIGURE, in nanoseconds an operation or in bytes an object.
mod clients;
mod order;
#[allow(dead_code)] // terms alone: no text is read or printed
mod term;

use order::{show, shuffled};
use std::collections::HashMap;
use std::hash::{BuildHasherDefault, Hash, Hasher};
use std::hint::black_box;
use std::sync::Mutex;
use std::time::Instant;
use term::Term;

/// FNV-1a, as the store hashes. The map takes a tag from the upper bits of a hash of 64, so the 32 are spread over them.
pub struct Fnv(u32);

impl Default for Fnv {
    fn default() -> Fnv {
        Fnv(2_166_136_261)
    }
}

impl Hasher for Fnv {
    fn finish(&self) -> u64 {
        u64::from(self.0).wrapping_mul(0x9E37_79B9_7F4A_7C15)
    }

    fn write(&mut self, bytes: &[u8]) {
        for byte in bytes {
            self.0 = (self.0 ^ u32::from(*byte)).wrapping_mul(16_777_619);
        }
    }
}

/// A key, of which the same seventeen bytes are hashed as in the store.
#[derive(Clone, PartialEq, Eq)]
pub struct Key(Term);

impl Hash for Key {
    fn hash<H: Hasher>(&self, hasher: &mut H) {
        if let Term::Int(n) = &self.0 {
            hasher.write(&[1]);
            hasher.write(&n.to_be_bytes());
        }
    }
}

pub type Map = HashMap<Key, Term, BuildHasherDefault<Fnv>>;

/// How a call reaches a map: through a lock, or directly.
trait Door {
    fn new(map: Map) -> Self;

    fn with<R>(&mut self, work: impl FnOnce(&mut Map) -> R) -> R;
}

impl Door for Mutex<Map> {
    fn new(map: Map) -> Self {
        Mutex::new(map)
    }

    fn with<R>(&mut self, work: impl FnOnce(&mut Map) -> R) -> R {
        work(&mut Mutex::lock(self).unwrap())
    }
}

struct Open(Map);

impl Door for Open {
    fn new(map: Map) -> Self {
        Open(map)
    }

    fn with<R>(&mut self, work: impl FnOnce(&mut Map) -> R) -> R {
        work(&mut self.0)
    }
}

pub fn key(k: u64) -> Key {
    Key(Term::Int(k.into()))
}

pub fn object(k: u64) -> Term {
    Term::Tuple(vec![Term::Int(k.into()), Term::Int(1)])
}

fn insert(map: &mut Map, k: u64) -> bool {
    map.insert(key(k), object(k)).is_none()
}

fn hit(map: &mut Map, k: u64) -> bool {
    map.get(&key(k)).is_some_and(|object| matches!(object, Term::Tuple(row) if matches!(row.get(1), Some(Term::Int(1..)))))
}

fn count_up(map: &mut Map, k: u64) -> bool {
    match map.get_mut(&key(k)) {
        Some(Term::Tuple(row)) => match &mut row[1] {
            Term::Int(n) => {
                *n += 1;
                true
            }
            _ => false,
        },
        _ => false,
    }
}

/// What a lookup of a whole call answers: copies of what is stored.
pub fn found(map: &Map, key: &Key) -> Term {
    Term::List(map.get(key).into_iter().cloned().collect())
}

/// Small tables are made again and again, and each figure is the least.
fn repeats(count: u64) -> u64 {
    (300_000 / count).max(1)
}

/// Does a phase, and keeps the least of its seconds.
fn phase(best: &mut f64, count: u64, work: impl FnOnce() -> usize) {
    let start = Instant::now();
    let done = work();
    *best = best.min(start.elapsed().as_secs_f64());
    assert_eq!(done as u64, count);
}

/// Takes maps through the phases. Where calls are whole, what is stored is a copy of an argument that was made before, and
/// the reply of a lookup a copy of what is stored.
fn lives<D: Door>(who: &str, count: u64, is_whole: bool) {
    let orders: Vec<Vec<u64>> = (1..=5).map(|seed| shuffled(count, seed).collect()).collect();
    let objects: Vec<Term> = if is_whole { orders[0].iter().map(|k| object(*k)).collect() } else { Vec::new() };
    let mut best = [f64::INFINITY; 5];
    for _ in 0..repeats(count) {
        let mut map = D::new(Map::default());
        if is_whole {
            let stored = |map: &mut Map, k: u64, object: &Term| map.insert(key(k), black_box(object).clone()).is_none();
            phase(&mut best[0], count, || orders[0].iter().zip(&objects).filter(|(k, object)| map.with(|map| stored(map, **k, object))).count());
            let is_found = |map: &mut Map, k: u64| matches!(black_box(&found(map, &key(k))), Term::List(objects) if objects.len() == 1);
            phase(&mut best[1], count, || orders[1].iter().filter(|k| map.with(|map| is_found(map, **k))).count());
        } else {
            phase(&mut best[0], count, || orders[0].iter().filter(|k| map.with(|map| insert(map, **k))).count());
            phase(&mut best[1], count, || orders[1].iter().filter(|k| map.with(|map| hit(map, **k))).count());
        }
        phase(&mut best[2], count, || orders[2].iter().filter(|k| map.with(|map| !map.contains_key(&key(**k + count)))).count());
        phase(&mut best[3], count, || orders[3].iter().filter(|k| map.with(|map| count_up(map, **k))).count());
        phase(&mut best[4], count, || orders[4].iter().filter(|k| map.with(|map| map.remove(&key(**k)).is_some())).count());
    }
    for (operation, seconds) in ["insert", "hit", "miss", "counter", "delete"].iter().zip(best) {
        show(who, operation, seconds * 1e9 / count as f64);
    }
}

/// The longest of this many insertions into one table.
fn longest(count: u64) {
    let mut map: Mutex<Map> = Door::new(Map::default());
    let insertion = |k| {
        let start = Instant::now();
        assert!(map.with(|map| insert(map, k)));
        start.elapsed().as_nanos()
    };
    let longest = shuffled(count, 1).map(insertion).max().unwrap_or(0);
    show("Mutex<HashMap>", "longest", longest as f64);
}

/// As many tables as make about 300,000 objects, so that the pages of a small one do not blur it.
fn bytes(count: u64) {
    let order: Vec<u64> = shuffled(count, 1).collect();
    let before = resident();
    let tables: Vec<Mutex<Map>> = (0..repeats(count))
        .map(|_| {
            let mut map = Map::default();
            order.iter().for_each(|k| assert!(insert(&mut map, *k)));
            Mutex::new(map)
        })
        .collect();
    show("Mutex<HashMap>", "bytes", (resident() - before) / (count * tables.len() as u64) as f64);
}

/// The bytes that this process has in memory now.
fn resident() -> f64 {
    let pages = std::fs::read_to_string("/proc/self/statm").unwrap();
    pages.split_whitespace().nth(1).unwrap().parse::<f64>().unwrap() * 4096.0
}

fn main() {
    let words: Vec<String> = std::env::args().skip(1).collect();
    let number = |at: usize| words.get(at).and_then(|word| word.parse().ok()).unwrap_or(1_000_000);
    match words.first().map_or("", String::as_str) {
        "times" => {
            lives::<Mutex<Map>>("Mutex<HashMap>", number(1), false);
            lives::<Open>("HashMap", number(1), false);
        }
        "copies" => {
            lives::<Mutex<Map>>("Mutex<HashMap>,copies", number(1), true);
            lives::<Open>("HashMap,copies", number(1), true);
        }
        "longest" => longest(number(1)),
        "bytes" => bytes(number(1)),
        "clients" => clients::all(number(1), number(2)),
        _ => eprintln!("maps times|copies|longest|bytes COUNT, or maps clients THREADS CALLS"),
    }
}
