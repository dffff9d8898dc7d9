//! Tests of long replies: they arrive whole, and their memory is given back.
use std::fs;
use yoyoash::{term, Store, Term};

/// The most memory in KiB that may stay after a long reply.
const MOST_KEPT: u64 = 8 << 10;

fn store_with_table() -> Store {
    let store = Store::new().unwrap();
    store.spawn_as(0).unwrap();
    store.call(0, "{new,t,[named_table]}").unwrap();
    store
}

/// Returns bytes of this number, each of which differs from its neighbours.
fn bytes_of(len: usize) -> Vec<u8> {
    (0..len).map(|at| (at * 7 + at / 256) as u8).collect()
}

/// Returns the memory of this process in KiB.
fn resident() -> u64 {
    let status = fs::read_to_string("/proc/self/status").unwrap();
    let line = status.lines().find_map(|line| line.strip_prefix("VmRSS:")).unwrap();
    line.split_whitespace().next().unwrap().parse().unwrap()
}

fn long_replies_are_whole(store: &Store) {
    for len in [100_000, 2_000_000, 100_000] {
        let object = Term::Tuple(vec![Term::Int(1), Term::Binary(bytes_of(len))]);
        store.ask(0, "insert", &[term!(:t), object.clone()]).unwrap();
        let found = Term::List(vec![object]);
        let arguments = [term!(:t), Term::Int(1)];
        assert!(store.ask(0, "lookup", &arguments).as_ref() == Ok(&found), "{len} bytes by ask");
        assert!(store.call_with(0, "lookup", &arguments).as_ref() == Ok(&found), "{len} bytes by call_with");
        assert!(store.call_text(0, "{lookup,t,1}").unwrap() == found.to_string(), "{len} bytes by call_text");
        let lookup = Term::Tuple(vec![term!(:lookup), Term::List(arguments.to_vec())]).to_external().unwrap();
        assert!(
            store.call_external(0, &lookup).unwrap() == found.to_external().unwrap(),
            "{len} bytes by call_external"
        );
    }
}

fn long_replies_are_given_back(store: &Store) {
    store.call(0, "{delete_all_objects,t}").unwrap();
    let before = resident();
    let object = Term::Tuple(vec![Term::Int(1), Term::Binary(vec![7; 50_000_000])]);
    store.ask(0, "insert", &[term!(:t), object]).unwrap();
    drop(store.ask(0, "lookup", &[term!(:t), Term::Int(1)]).unwrap());
    store.call(0, "{delete,t,1}").unwrap();
    // (a deleted object goes with the next call)
    store.call(0, "{member,t,1}").unwrap();
    let kept = resident().saturating_sub(before);
    assert!(kept < MOST_KEPT, "{kept} KiB stay after a reply of 50 MB");
}

/// Runs both in one test, since a second test at the same time would change the memory of this process.
#[test]
fn long_replies() {
    let store = store_with_table();
    long_replies_are_whole(&store);
    long_replies_are_given_back(&store);
}
