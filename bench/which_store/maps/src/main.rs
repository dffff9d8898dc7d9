//! Measures the CPU time of one insertion and of one lookup, and the memory of a pair of integers, in two maps of Rust.
use std::{collections::HashMap, fs, sync::Mutex};

const PAIRS: i64 = 100_000;
const LOOKUPS: i64 = 3_000_000;

/// Returns a number of a file in /proc/self.
fn number(file: &str, place: usize) -> f64 {
    let text = fs::read_to_string(format!("/proc/self/{file}")).expect("a file of this process");
    text.split(' ').nth(place).and_then(|it| it.parse().ok()).expect("a number")
}

fn measure(name: &str, put: impl Fn(i64), get: impl Fn(i64) -> i64) {
    put(PAIRS);
    let (before, began) = (number("statm", 1), number("schedstat", 0));
    (0..PAIRS).for_each(put);
    let (after, filled) = (number("statm", 1), number("schedstat", 0));
    let mut seed = 1u64;
    for _ in 0..LOOKUPS {
        seed = seed.wrapping_mul(6364136223846793005).wrapping_add(1442695040888963407);
        let key = (seed >> 33) as i64 % PAIRS;
        assert_eq!(get(key), key);
    }
    let found = (number("schedstat", 0) - filled) / LOOKUPS as f64;
    let (inserted, bytes) = ((filled - began) / PAIRS as f64, (after - before) * 4096.0 / PAIRS as f64);
    println!("{name}: insert {inserted:.0} ns, lookup {found:.0} ns, {bytes:.0} bytes a pair");
}

fn main() {
    if std::env::args().any(|it| it == "dashmap") {
        let map = dashmap::DashMap::new();
        let put = |key| assert_eq!(map.insert(key, key).unwrap_or(key), key);
        measure("dashmap", put, |key| *map.get(&key).expect("the key"));
    } else {
        let map = Mutex::new(HashMap::new());
        let put = |key| assert_eq!(map.lock().expect("the lock").insert(key, key).unwrap_or(key), key);
        measure("hashmap", put, |key| map.lock().expect("the lock")[&key]);
    }
}
