//! Tests of a store after `fork`: each process has a store of its own.
use yoyoash::{term, Error, Store, Term};

extern "C" {
    fn fork() -> i32;
    fn waitpid(pid: i32, status: *mut i32, options: i32) -> i32;
    fn _exit(status: i32) -> !;
}

fn count(store: &Store) -> Result<Term, Error> {
    store.ask(0, "update_counter", &[term!(:t), term!(:count), Term::Int(1)])
}

/// Counts to a thousand in a store that was open before the fork, and reads nothing that another process wrote.
fn counts_alone(store: &Store) -> bool {
    (1..=1_000).all(|number| count(store) == Ok(Term::Int(number)))
}

#[test]
fn a_child_has_a_store_of_its_own() -> Result<(), Error> {
    let store = Store::new()?;
    store.spawn_as(0)?;
    store.call(0, "{new,t,[named_table]}")?;
    store.call(0, "{insert,t,{count,0}}")?;
    let child = unsafe { fork() };
    let is_alone = counts_alone(&store);
    if child == 0 {
        unsafe { _exit(if is_alone { 0 } else { 1 }) };
    }
    let mut status = -1;
    assert_eq!(unsafe { waitpid(child, &mut status, 0) }, child);
    assert!(is_alone);
    assert_eq!(status, 0, "the child read what the parent wrote");
    Ok(())
}
