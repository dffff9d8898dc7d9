//! Tests of processes and tables by their methods.
use std::panic::{catch_unwind, AssertUnwindSafe};
use std::thread;
use yoyoash::{term, Error, ErrorKind, Item, Limits, Options, Process, Reason, Store, Table, TableId, Update};

fn process() -> Process {
    Store::new().unwrap().spawn().unwrap()
}

fn table(options: Options) -> Table {
    process().new_table("t", options).unwrap()
}

fn is_fixed(table: &Table) -> bool {
    table.info(Item::Fixed).unwrap().unwrap().is_true()
}

#[test]
fn spawn_takes_the_least_number_that_was_never_used() -> Result<(), Error> {
    let store = Store::with_limits(Limits { processes: 5, ..Limits::default() })?;
    for number in [0, 2, 3] {
        store.spawn_as(number)?;
    }
    store.exit(0)?;
    assert_eq!((store.spawn()?.pid().number(), store.spawn()?.pid().number()), (1, 4));
    assert_eq!(store.spawn().unwrap_err().reason(), Reason::ProcessLimit);
    Ok(())
}

#[test]
fn a_store_lives_as_long_as_its_handles() -> Result<(), Error> {
    let table = table(Options::new());
    table.insert((1, "a"))?;
    let other = table.process().store().spawn()?.table(&table);
    drop(table);
    assert_eq!(other.lookup(1)?, [term!({1, "a"})]);
    Ok(())
}

#[test]
fn options_have_their_effect() -> Result<(), Error> {
    let process = process();
    let heir = process.store().spawn()?;
    let options = Options::new().named().duplicate_bag().private().key_position(2).heir(&heir, "gift");
    let table = process.new_table("t", options)?;
    let items = [
        Item::Name,
        Item::NamedTable,
        Item::Type,
        Item::Protection,
        Item::KeyPosition,
        Item::Heir,
        Item::Owner,
        Item::Id,
    ];
    let values: Result<Vec<_>, _> = items.iter().map(|item| table.info(*item)).collect();
    let values: Vec<_> = values?.into_iter().flatten().map(|value| value.to_string()).collect();
    assert_eq!(values, ["t", "true", "duplicate_bag", "private", "2", "<0.1.0>", "<0.0.0>", "#Tid<0>"]);
    assert_eq!(table.insert((1,)).unwrap_err().reason(), Reason::NotAnObject);
    assert_eq!(process.new_table("u", Options::new().key_position(0)).unwrap_err().reason(), Reason::BadOption);
    Ok(())
}

#[test]
fn a_missing_key_is_nothing_and_other_refusals_are_errors() -> Result<(), Error> {
    let table = table(Options::new());
    table.insert(("apple", 30, "red"))?;
    assert_eq!(table.lookup_element("pear", 2)?, None);
    assert_eq!(table.lookup_element("apple", 4).unwrap_err().reason(), Reason::NoElement);
    assert_eq!(table.lookup_element("pear", 0).unwrap_err().reason(), Reason::NotAPosition);
    assert_eq!(table.update_counter("pear", 1)?, None);
    assert_eq!(table.update_counters("pear", [Update::at(2, 1)])?, None);
    assert_eq!(table.update_counter("apple", Update::at(3, 1)).unwrap_err().reason(), Reason::NotACounter);
    assert_eq!(table.update_counter("apple", i128::MAX).unwrap_err().reason(), Reason::LimitExceeded);
    assert_eq!(table.update_counters("apple", [Update::at(2, 1), Update::at(3, 1)]).unwrap_err().argument(), Some(3));
    assert_eq!(table.lookup_element("apple", 2)?, Some(term!(30)));
    assert!(!table.update_element("pear", 2, 1)?);
    assert_eq!(table.update_element("apple", 1, 1).unwrap_err().reason(), Reason::NotAnUpdate);
    table.delete_table()?;
    assert_eq!(table.lookup_element("apple", 2).unwrap_err().reason(), Reason::NoTable);
    assert_eq!((table.size()?, table.info(Item::Owner)?), (None, None));
    Ok(())
}

#[test]
fn data_is_never_a_call_or_a_name() -> Result<(), Error> {
    let process = process();
    let odd = "t},{delete,t";
    let table = process.new_table(odd, Options::new().named())?;
    table.insert((odd, 1))?;
    assert_eq!(table.lookup(odd)?, [term!({ odd, 1 })]);
    assert_eq!(process.whereis(odd)?, Some(TableId::Number(0)));
    for name in ["ä", &"a".repeat(256)] {
        let error = process.new_table(name, Options::new()).unwrap_err();
        assert_eq!(error.reason(), Reason::BadAtom);
        assert_eq!(process.table(name).lookup(1).unwrap_err().reason(), Reason::BadAtom);
    }
    Ok(())
}

#[test]
fn a_guard_releases_its_table() -> Result<(), Error> {
    let table = table(Options::new());
    let (outer, inner) = (table.fix()?, table.fix()?);
    drop(outer);
    assert!(is_fixed(&inner));
    drop(inner);
    assert!(!is_fixed(&table));
    let panicked = catch_unwind(AssertUnwindSafe(|| {
        let _fixed = table.fix().unwrap();
        assert!(is_fixed(&table));
        panic!("as this test wants");
    }));
    assert!(panicked.is_err() && !is_fixed(&table));
    let fixed = table.fix()?;
    table.process().clone().exit()?;
    assert_eq!(fixed.iter().next().unwrap().unwrap_err().kind(), ErrorKind::NoProcess);
    Ok(())
}

#[test]
fn a_traversal_of_a_fixed_table_visits_each_key_that_stays_once() -> Result<(), Error> {
    let table = table(Options::new());
    table.insert_all((0..1_000).map(|key| (key, 0)))?;
    let fixed = table.fix()?;
    let mut visited = vec![];
    for (turn, key) in fixed.keys().enumerate() {
        let key = i64::try_from(key?).unwrap();
        visited.push(key);
        table.delete(key)?;
        table.insert((1_000 + turn, 0))?;
        table.insert((2_000 + turn, 0))?;
        if turn == 5_000 {
            break;
        }
    }
    for key in 0..1_000 {
        assert_eq!(visited.iter().filter(|it| **it == key).count(), 1, "{key}");
    }
    Ok(())
}

#[test]
fn iterators_end_after_an_error() -> Result<(), Error> {
    let table = table(Options::new().bag());
    table.insert_all([(1, 1), (1, 2), (2, 1)])?;
    let fixed = table.fix()?;
    let (mut objects, mut keys) = (fixed.iter(), fixed.keys());
    assert!(objects.next().unwrap().is_ok() && keys.next().unwrap().is_ok());
    assert_eq!((fixed.iter().count(), fixed.keys().count()), (3, 2));
    table.delete_table()?;
    assert_eq!(objects.by_ref().filter(|it| it.is_err()).count(), 1);
    assert_eq!(keys.next().unwrap().unwrap_err().reason(), Reason::NoTable);
    assert!(objects.next().is_none() && keys.next().is_none());
    Ok(())
}

#[test]
fn owners_change_and_messages_say_so() -> Result<(), Error> {
    let owner = process();
    let (second, third) = (owner.store().spawn()?, owner.store().spawn()?);
    let table = owner.new_table("t", Options::new().private())?;
    table.set_heir(&third, term!({:from, "heir"}))?;
    table.give_away(&second, 7)?;
    assert_eq!(table.give_away(&third, 7).unwrap_err().reason(), Reason::NotOwner);
    let transfers = second.receive()?;
    assert_eq!((&transfers[0].table, transfers[0].from, &transfers[0].gift), (table.id(), owner.pid(), &term!(7)));
    assert_eq!(second.receive()?, []);
    second.table(&table).insert((1,))?;
    second.exit()?;
    assert_eq!(third.receive()?[0].gift, term!({:from, "heir"}));
    third.table(&table).clear_heir()?;
    third.exit()?;
    assert_eq!(table.size()?, None);
    Ok(())
}

#[test]
fn threads_have_handles_of_their_own() -> Result<(), Error> {
    let counts = table(Options::new().public());
    let workers: Vec<_> = (0..4)
        .map(|_| {
            let counts = counts.process().store().spawn().unwrap().table(&counts);
            thread::spawn(move || {
                (0..1_000).map(|_| counts.update_counter_or("all", 1, ("", 0)).unwrap()).collect::<Vec<_>>()
            })
        })
        .collect();
    let mut values: Vec<i128> = workers.into_iter().flat_map(|worker| worker.join().unwrap()).collect();
    values.sort_unstable();
    assert_eq!(values, (1..=4_000).collect::<Vec<_>>());
    Ok(())
}
