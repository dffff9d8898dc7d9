//! A limit of 100 requests for each client in a window of time. Four threads count in one store: `update_counter_or`
//! adds 1 and returns the new count in one step, so no two threads get the same count.
use std::thread;
use yoyoash::{Error, Options, Store, Table};

const THREADS: usize = 4;
const REQUESTS: usize = 50;
const MOST: i128 = 100;

struct Limiter {
    counts: Table,
}

impl Limiter {
    /// Counts a request of a client in a window, and returns the count.
    fn count(&self, client: &str, window: i64) -> Result<i128, Error> {
        self.counts.update_counter_or((client, window), 1, ((), 0))
    }

    /// Sends the requests of one thread, all of one client in one window. Returns how many were allowed.
    fn work(&self) -> Result<usize, Error> {
        let counts: Result<Vec<_>, _> = (0..REQUESTS).map(|_| self.count("10.0.0.7", 1)).collect();
        Ok(counts?.into_iter().filter(|count| *count <= MOST).count())
    }
}

fn main() -> Result<(), Error> {
    let store = Store::new()?;
    let counts = store.spawn()?.new_table("counts", Options::new().public())?;
    let mut workers = vec![];
    for _ in 0..THREADS {
        let limiter = Limiter { counts: store.spawn()?.table(&counts) };
        workers.push(thread::spawn(move || limiter.work()));
    }
    let mut allowed = 0;
    for worker in workers {
        allowed += worker.join().expect("a worker does not panic")?;
    }
    let sent = THREADS * REQUESTS;
    println!("{THREADS} threads sent {sent} requests: {allowed} allowed, {} refused", sent - allowed);
    println!("the next window begins with count {}", Limiter { counts }.count("10.0.0.7", 2)?);
    Ok(())
}
