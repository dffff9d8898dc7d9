//! Tests of terms with 100,000 levels, which no stack of a test has room for.
use std::collections::hash_map::DefaultHasher;
use std::hash::{Hash, Hasher};
use yoyoash::{term, ErrorKind, Store, Term};

const LEVELS: usize = 100_000;

fn list(levels: usize) -> Term {
    (1..levels).fold(Term::List(vec![]), |inner, _| Term::List(vec![inner]))
}

/// Returns a term of this depth in which tuples and lists alternate, and whose deep element has neighbours.
fn mixed(levels: usize) -> Term {
    (1..levels).fold(Term::Int(0), |inner, level| match level % 2 {
        0 => Term::Tuple(vec![term!(:a), inner]),
        _ => Term::List(vec![inner, Term::List(vec![Term::Int(1)])]),
    })
}

fn hash_of(term: &Term) -> u64 {
    let mut hasher = DefaultHasher::new();
    term.hash(&mut hasher);
    hasher.finish()
}

#[test]
fn a_call_with_a_deep_term_is_refused() {
    let store = Store::new().unwrap();
    store.spawn_as(0).unwrap();
    store.call(0, "{new,t,[named_table]}").unwrap();
    for deep in [list(LEVELS), mixed(LEVELS)] {
        let arguments = [term!(:t), deep];
        for refused in [store.ask(0, "lookup", &arguments), store.call_with(0, "lookup", &arguments)] {
            assert!(matches!(refused.unwrap_err().kind(), ErrorKind::Syntax { .. }));
        }
    }
    assert_eq!(store.ask(0, "info", &[term!(:t), term!(:size)]), Ok(Term::Int(0)));
}

#[test]
fn deep_terms_are_dropped() {
    drop(list(LEVELS));
    drop(mixed(LEVELS));
    drop(vec![mixed(LEVELS), Term::Int(1), list(LEVELS)]);
}

#[test]
fn deep_terms_are_printed() {
    assert_eq!(list(LEVELS).to_string(), "[".repeat(LEVELS) + &"]".repeat(LEVELS));
    assert_eq!(format!("{:?}", list(LEVELS)).len(), 2 * LEVELS);
    assert_eq!(mixed(5).to_string(), "{a,[{a,[0,[1]]},[1]]}");
    assert_eq!(mixed(LEVELS).to_string().matches("[1]").count(), LEVELS / 2);
}

#[test]
fn deep_terms_are_written_as_bytes() {
    let bytes = list(LEVELS).to_external().unwrap();
    assert_eq!(bytes.len(), 2 + 6 * (LEVELS - 1));
    assert_eq!(Term::from_external(&bytes).unwrap_err().problem(), "too many levels");
    assert_eq!(Term::from_external(&mixed(256).to_external().unwrap()), Ok(mixed(256)));
}

#[test]
fn deep_terms_are_cloned_compared_and_hashed() {
    for deep in [list, mixed] {
        let term = deep(LEVELS);
        let copy = term.clone();
        assert!(copy == term && hash_of(&copy) == hash_of(&term));
        assert!(term != deep(LEVELS - 1) && term != deep(LEVELS + 1));
    }
}
