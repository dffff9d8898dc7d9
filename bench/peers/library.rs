//! Measures the store's layers as a library, each with the same in hand-written Rust: library PART COUNT.
//!
//! Prints a line for each figure: WHO OPERATION FIGURE, in nanoseconds an operation or in bytes an item.
mod list;
mod order;
mod term;

use order::{show, shuffled};
use std::hint::black_box;
use std::time::Instant;
use term::{Reader, print};

// The crate bench_layers. Each call does a whole phase, since no value of the store crosses the border; its leading
// argument, the allocator, has no size.
unsafe extern "C" {
    fn bench_layers_read(turns: u64) -> u64;
    fn bench_layers_print(turns: u64) -> u64;
    fn bench_layers_list(items: u64, buckets: u64, finds: u64) -> u64;
}

const TEXT: &str = "{key123,456,[1,2,3],'Hello World'}";

/// The least seconds of five runs.
fn best(mut work: impl FnMut()) -> f64 {
    let run = |_| {
        let start = Instant::now();
        work();
        start.elapsed().as_secs_f64()
    };
    (0..5).map(run).fold(f64::INFINITY, f64::min)
}

fn text(count: u64) {
    let each = 1e9 / count as f64;
    let ours = best(|| assert_eq!(unsafe { bench_layers_read(count) }, count * TEXT.len() as u64));
    show("store", "read", ours * each);
    let theirs = best(|| {
        for _ in 0..count {
            let mut reader = Reader { bytes: black_box(TEXT.as_bytes()), at: 0 };
            drop(black_box(reader.term()));
            assert_eq!(reader.at, TEXT.len());
        }
    });
    show("Rust", "read", theirs * each);
    let ours = best(|| assert_eq!(unsafe { bench_layers_print(count) }, count * TEXT.len() as u64));
    show("store", "print", ours * each);
    let object = Reader { bytes: TEXT.as_bytes(), at: 0 }.term();
    let theirs = best(|| {
        let (mut out, mut all) = (Vec::new(), 0);
        for _ in 0..count {
            out.clear();
            print(black_box(&object), &mut out);
            all += out.len() as u64;
        }
        assert_eq!(all, count * TEXT.len() as u64);
    });
    show("Rust", "print", theirs * each);
}

const BUCKETS: u64 = 262_144;

fn store_list(count: u64) {
    let each = 1e9 / count as f64;
    let inserted = best(|| assert_eq!(unsafe { bench_layers_list(count, BUCKETS, 0) }, 0));
    let found = best(|| assert_eq!(unsafe { bench_layers_list(count, BUCKETS, 1) }, count));
    show("store", "list-insert", inserted * each);
    show("store", "list-find", (found - inserted) * each);
    show("store", "list-bytes", peak() / count as f64);
}

fn rust_list(count: u64) {
    let each = 1e9 / count as f64;
    let inserted = best(|| assert_eq!(list::phase(count, BUCKETS, 0), 0));
    let found = best(|| assert_eq!(list::phase(count, BUCKETS, 1), count));
    show("Rust", "list-insert", inserted * each);
    show("Rust", "list-find", (found - inserted) * each);
    show("Rust", "list-bytes", peak() / count as f64);
}

/// The most bytes that this process had in memory.
fn peak() -> f64 {
    let status = std::fs::read_to_string("/proc/self/status").unwrap();
    let line = status.lines().find(|line| line.starts_with("VmHWM")).unwrap();
    line.split_whitespace().nth(1).unwrap().parse::<f64>().unwrap() * 1024.0
}

/// What one dependent miss of the cache costs: a walk along `count` lines in shuffled order.
fn chase(count: u64) {
    let order: Vec<u64> = shuffled(count, 5).collect();
    let mut next = vec![[0u64; 16]; count as usize];
    for pair in order.windows(2) {
        next[pair[0] as usize][0] = pair[1];
    }
    next[order[order.len() - 1] as usize][0] = order[0];
    let seconds = best(|| {
        let mut at = order[0];
        (0..count).for_each(|_| at = next[at as usize][0]);
        assert_eq!(black_box(at), order[0]);
    });
    show("machine", "miss", seconds * 1e9 / count as f64);
}

fn main() {
    let mut words = std::env::args().skip(1);
    let part = words.next().unwrap_or_default();
    let count = words.next().and_then(|word| word.parse().ok()).unwrap_or(1_000_000);
    match part.as_str() {
        "text" => text(count),
        "store-list" => store_list(count),
        "rust-list" => rust_list(count),
        "chase" => chase(count),
        _ => eprintln!("library text|store-list|rust-list|chase [COUNT]"),
    }
}
