//! Tests of a store in this process.
use std::thread;
use yoyoash::{term, Error, ErrorKind, Limits, Reason, Store, Term};

fn store_with_table() -> Result<Store, Error> {
    let store = Store::new()?;
    store.spawn_as(0)?;
    store.call(0, "{new,t,[named_table,public]}")?;
    Ok(store)
}

fn kind_of(store: &Store, text: &str) -> ErrorKind {
    store.call(0, text).unwrap_err().kind()
}

#[test]
fn calls_reply_with_terms() -> Result<(), Error> {
    let store = store_with_table()?;
    assert!(store.call(0, "{insert,t,[{apple,30},{pear,40}]}")?.is_true());
    assert_eq!(store.call(0, "{update_counter,t,apple,5}")?, Term::Int(35));
    assert_eq!(store.call_text(0, "{lookup,t,pear}")?, "[{pear,40}]");
    Ok(())
}

#[test]
fn arguments_are_quoted() -> Result<(), Error> {
    let store = store_with_table()?;
    let odd = Term::Atom("it's },{delete,t".to_owned());
    let object = Term::Tuple(vec![odd.clone(), Term::Binary(vec![0, 255])]);
    store.call_with(0, "insert", &[term!(:t), object.clone()])?;
    assert_eq!(store.call_with(0, "lookup", &[term!(:t), odd])?, Term::List(vec![object]));
    Ok(())
}

/// Returns the answer by `ask`, after a check that the call by a text has the same.
fn asked(store: &Store, name: &str, arguments: &[Term]) -> Result<Term, Error> {
    let by_text = store.call_with(0, name, arguments);
    let answer = store.ask(0, name, arguments);
    assert_eq!(by_text, answer);
    answer
}

#[test]
fn calls_by_terms_and_by_texts_have_the_same_answers() -> Result<(), Error> {
    let store = store_with_table()?;
    let pair = |key, value| Term::Tuple(vec![key, value]);
    let objects = [
        pair(term!(:apple), Term::Int(30)),
        pair(Term::Int(i128::MIN), Term::Binary(vec![0, 255])),
        pair(Term::Atom("it's".to_owned()), Term::List(vec![Term::Int(104), Term::Int(105)])),
        pair(Term::Tuple(vec![]), Term::List(vec![Term::Pid(u32::MAX), Term::Tid(7), Term::List(vec![])])),
    ];
    for object in objects {
        let elements = object.as_tuple().unwrap();
        assert!(asked(&store, "insert", &[term!(:t), object.clone()])?.is_true());
        assert_eq!(asked(&store, "lookup", &[term!(:t), elements[0].clone()])?, Term::List(vec![object.clone()]));
    }
    assert_eq!(asked(&store, "receive", &[])?, Term::List(vec![]));
    let error = asked(&store, "lookup", &[term!(:shops), term!(:apple)]).unwrap_err();
    assert_eq!(
        (error.kind(), error.reason(), error.text()),
        (ErrorKind::BadArg, Reason::NoTable, "argument 1: no such table")
    );
    assert_eq!(store.ask(7, "receive", &[]).unwrap_err().kind(), ErrorKind::NoProcess);
    Ok(())
}

#[test]
fn terms_that_the_store_cannot_have_are_refused() -> Result<(), Error> {
    let store = store_with_table()?;
    let long = Term::Atom("a".repeat(256));
    let error = store.ask(0, "lookup", &[term!(:t), long]).unwrap_err();
    assert_eq!((error.kind(), error.reason()), (ErrorKind::Syntax { offset: 19 }, Reason::BadAtom));
    let deep = |levels| (1..levels).fold(Term::List(vec![]), |inner, _| Term::List(vec![inner]));
    assert_eq!(store.ask(0, "lookup", &[term!(:t), deep(126)])?, Term::List(vec![]));
    assert!(matches!(store.ask(0, "lookup", &[term!(:t), deep(127)]).unwrap_err().kind(), ErrorKind::Syntax { .. }));
    assert_eq!(store.call_with(0, "lookup", &[term!(:t), deep(127)])?, Term::List(vec![]));
    Ok(())
}

#[test]
fn calls_by_bytes_reply_with_bytes() -> Result<(), Error> {
    let store = store_with_table()?;
    let arguments = Term::List(vec![term!(:t), Term::Tuple(vec![Term::Int(1), Term::Binary(vec![7; 10_000])])]);
    let call = Term::Tuple(vec![term!(:insert), arguments]).to_external().unwrap();
    assert_eq!(store.call_external(0, &call)?, b"\x83w\x04true");
    let lookup = Term::Tuple(vec![term!(:lookup), Term::List(vec![term!(:t), Term::Int(1)])]).to_external().unwrap();
    let reply = store.call_external(0, &lookup)?;
    assert_eq!(Term::from_external(&reply).unwrap(), store.call(0, "{lookup,t,1}")?);
    let error = store.call_external(0, &lookup[..lookup.len() - 1]).unwrap_err();
    assert_eq!(error.kind(), ErrorKind::Syntax { offset: lookup.len() - 1 });
    assert_eq!(store.call_external(0, b"\x83j").unwrap_err().kind(), ErrorKind::Syntax { offset: 0 });
    Ok(())
}

#[test]
fn refused_calls_have_a_kind_and_a_reason() -> Result<(), Error> {
    let store = store_with_table()?;
    let error = store.call(0, "{lookup,shops,apple}").unwrap_err();
    assert_eq!(
        (error.kind(), error.reason(), error.text()),
        (ErrorKind::BadArg, Reason::NoTable, "argument 1: no such table")
    );
    assert_eq!(kind_of(&store, "{lookup,t,Apple}"), ErrorKind::Syntax { offset: 10 });
    assert_eq!(store.call(7, "{lookup,t,a}").unwrap_err().kind(), ErrorKind::NoProcess);
    let boxed: Box<dyn std::error::Error> = Box::new(error);
    assert_eq!(boxed.to_string(), "badarg: argument 1: no such table");
    Ok(())
}

#[test]
fn limits_hold() -> Result<(), Error> {
    let store = Store::with_limits(Limits { processes: 1, tables: 1, objects: 1 })?;
    store.spawn_as(0)?;
    let error = store.spawn_as(1).unwrap_err();
    assert_eq!(error.kind(), ErrorKind::SystemLimit);
    assert_eq!(
        error.to_string(),
        "system_limit: process limit reached; open the store with a larger Limits::processes"
    );
    store.call(0, "{new,t,[named_table]}")?;
    assert!(store.call(0, "{new,u,[]}").unwrap_err().remedy().unwrap().ends_with("Limits::tables"));
    store.call(0, "{insert,t,{a}}")?;
    assert!(store.call(0, "{insert,t,{b}}").unwrap_err().remedy().unwrap().ends_with("Limits::objects"));
    Ok(())
}

#[test]
fn long_replies_are_whole() -> Result<(), Error> {
    let store = store_with_table()?;
    for key in 0..10_000 {
        store.call(0, &format!("{{insert,t,{{{key},{key}}}}}"))?;
    }
    let objects = store.call(0, "{tab2list,t}")?.into_elements().unwrap();
    assert_eq!(objects.len(), 10_000);
    assert_eq!(store.ask(0, "tab2list", &[term!(:t)])?, store.call(0, "{tab2list,t}")?);
    Ok(())
}

#[test]
fn processes_exit_and_heirs_inherit() -> Result<(), Error> {
    let store = Store::new()?;
    store.spawn_as(0)?;
    store.spawn_as(1)?;
    store.call(0, "{new,t,[named_table,{heir,<0.1.0>,gift}]}")?;
    store.exit(0)?;
    assert_eq!(store.call_text(1, "{receive}")?, "[{'ETS-TRANSFER',t,<0.0.0>,gift}]");
    Ok(())
}

#[test]
fn threads_share_a_store() -> Result<(), Error> {
    let store = store_with_table()?;
    thread::scope(|scope| {
        let store = &store;
        let threads: Vec<_> = (1..5).map(|pid| scope.spawn(move || count_a_thousand(store, pid))).collect();
        threads.into_iter().try_for_each(|each| each.join().unwrap())
    })?;
    assert_eq!(store.call(0, "{lookup_element,t,count,2}")?, Term::Int(4_000));
    Ok(())
}

/// Starts a process, which counts and reads what it wrote itself, by a text and by a term.
fn count_a_thousand(store: &Store, pid: u32) -> Result<(), Error> {
    store.spawn_as(pid)?;
    let table = term!(:t);
    for number in 0..1_000 {
        store.call(pid, "{update_counter,t,count,1,{count,0}}")?;
        let own = Term::Tuple(vec![Term::Pid(pid), Term::Int(number)]);
        store.ask(pid, "insert", &[table.clone(), own.clone()])?;
        assert_eq!(store.ask(pid, "lookup", &[table.clone(), Term::Pid(pid)])?, Term::List(vec![own]));
    }
    Ok(())
}
