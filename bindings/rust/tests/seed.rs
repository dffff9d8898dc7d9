//! Tests of the seed of a store's hash: without it, a stranger could choose keys with one hash, and slow the store
//! down.
use std::collections::HashMap;
use yoyoash::{term, Store, Term};

/// The number of blocks of a chosen key. Each doubles the number of keys.
const BLOCKS: usize = 12;
/// The letters of a block.
const LETTERS: usize = 7;

#[repr(C)]
struct Time {
    seconds: i64,
    nanoseconds: i64,
}

extern "C" {
    fn clock_gettime(clock: i32, time: *mut Time) -> i32;
}

/// Returns the processor time of this thread in seconds.
fn spent() -> f64 {
    const THREAD: i32 = 3;
    let mut time = Time { seconds: 0, nanoseconds: 0 };
    assert_eq!(unsafe { clock_gettime(THREAD, &mut time) }, 0);
    time.seconds as f64 + time.nanoseconds as f64 / 1e9
}

/// Returns another block for each number. Blocks of near numbers differ in most letters.
fn block(number: u64) -> [u8; LETTERS] {
    let spread = number * 1_000_003;
    std::array::from_fn(|place| b'a' + (spread / 26u64.pow(place as u32) % 26) as u8)
}

/// FNV-1a, by which a store without a seed hashes the bytes of a term.
fn fnv(start: u32, bytes: &[u8]) -> u32 {
    bytes.iter().fold(start, |hash, byte| (hash ^ u32::from(*byte)).wrapping_mul(16_777_619))
}

/// Returns two blocks that lead from this hash to the same hash, and that hash.
fn pair(start: u32) -> ([[u8; LETTERS]; 2], u32) {
    let mut known = HashMap::new();
    (0..1 << 20)
        .find_map(|number| {
            let hash = fnv(start, &block(number));
            known.insert(hash, number).map(|other| ([block(other), block(number)], hash))
        })
        .expect("two of a million blocks have the same hash")
}

/// Returns 4,096 atoms with one FNV-1a hash: all ways to choose one of two blocks at each place.
fn chosen_keys() -> Vec<Term> {
    let mut keys = vec![vec![]];
    let mut hash = fnv(2_166_136_261, &[2, (BLOCKS * LETTERS) as u8]);
    for _ in 0..BLOCKS {
        let (blocks, next) = pair(hash);
        keys =
            keys.iter().flat_map(|key: &Vec<u8>| blocks.iter().map(move |block| [key, &block[..]].concat())).collect();
        hash = next;
    }
    keys.into_iter().map(|key| Term::Atom(String::from_utf8(key).unwrap())).collect()
}

/// Returns as many atoms of the same length.
fn ordinary_keys() -> Vec<Term> {
    (0..1 << BLOCKS).map(|number| Term::Atom(format!("{number:a>width$}", width = BLOCKS * LETTERS))).collect()
}

fn insertion(key: &Term) -> Vec<u8> {
    let arguments = Term::List(vec![term!(:t), Term::Tuple(vec![key.clone(), Term::Int(1)])]);
    Term::Tuple(vec![term!(:insert), arguments]).to_external().unwrap()
}

/// Returns the seconds of processor time in which a store takes an object for each key.
fn time_of(store: &Store, keys: &[Term]) -> f64 {
    store.spawn_as(0).unwrap();
    store.call(0, "{new,t,[named_table]}").unwrap();
    let calls: Vec<_> = keys.iter().map(insertion).collect();
    let start = spent();
    for call in &calls {
        store.call_external(0, call).unwrap();
    }
    let time = spent() - start;
    assert_eq!(store.call(0, "{info,t,size}").unwrap(), Term::Int(keys.len() as i128));
    time
}

#[test]
fn chosen_keys_cost_what_ordinary_keys_cost() {
    let ordinary = time_of(&Store::new().unwrap(), &ordinary_keys());
    let chosen = time_of(&Store::new().unwrap(), &chosen_keys());
    assert!(chosen < 4.0 * ordinary, "chosen keys take {chosen:.3} s, ordinary ones {ordinary:.3} s");
}
