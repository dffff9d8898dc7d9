//! Tests of the reasons of refusals.
use yoyoash::{term, ErrorKind, Limits, Reason, Store};

/// Texts of calls that are refused, with the reason and the number of its argument. Before them, process 0 has a set
/// `t` with the object `{a,1,x}` and a bag `b`, and process 1 a private table `p` and a protected table `q`.
const REFUSED: [(&str, Reason, usize); 46] = [
    ("{lookup,u,a}", Reason::NoTable, 1),
    ("{lookup,p,a}", Reason::NotReadable, 1),
    ("{insert,q,{a}}", Reason::NotWritable, 1),
    ("{setopts,q,[]}", Reason::NotOwner, 1),
    ("{update_counter,b,a,1}", Reason::NotASet, 1),
    ("{insert,t,a}", Reason::NotAnObject, 2),
    ("{lookup_element,t,c,2}", Reason::NoKey, 2),
    ("{lookup_element,t,a,0}", Reason::NotAPosition, 3),
    ("{lookup_element,t,a,9}", Reason::NoElement, 3),
    ("{match,t,7}", Reason::NotAPattern, 2),
    ("{select,t,[]}", Reason::NotASpecification, 2),
    ("{update_counter,t,a,{1,1}}", Reason::NotAnUpdate, 3),
    ("{update_counter,t,a,{3,1}}", Reason::NotACounter, 3),
    ("{whereis,1}", Reason::NotAnAtom, 1),
    ("{new,t,[named_table]}", Reason::NameUsed, 1),
    ("{new,u,[nothing]}", Reason::BadOption, 2),
    ("{info,t,nothing}", Reason::BadItem, 2),
    ("{safe_fixtable,t,1}", Reason::NotABoolean, 2),
    ("{give_away,t,1,x}", Reason::NotAPid, 2),
    ("{give_away,t,<0.0.0>,x}", Reason::OwnsAlready, 2),
    ("{give_away,t,<0.9.0>,x}", Reason::NoProcess, 2),
    ("{lokup,t,a}", Reason::UnknownCall, 0),
    ("{lookup,t}", Reason::WrongArguments, 0),
    ("{insert,t,[{c},{d},{e},{f},{g}]}", Reason::ObjectLimit, 0),
    ("{new,u,[]}", Reason::TableLimit, 0),
    ("{update_counter,t,a,170141183460469231731687303715884105727}", Reason::LimitExceeded, 0),
    ("lookup", Reason::NotACallText, 0),
    ("{lookup,t,a} a", Reason::Unexpected, 0),
    ("{lookup,t,a}% a", Reason::Comment, 0),
    ("{lookup,t,A}", Reason::Variable, 0),
    ("{lookup,t,1.5}", Reason::Float, 0),
    ("{lookup,t,#{}}", Reason::Map, 0),
    ("{lookup,t,#Ref<1>}", Reason::BadReference, 0),
    ("{lookup,t,$a}", Reason::Character, 0),
    ("{lookup,t,16#ff}", Reason::IntegerBase, 0),
    ("{lookup,t,[a|b]}", Reason::ImproperList, 0),
    ("{lookup,t,170141183460469231731687303715884105728}", Reason::IntegerRange, 0),
    ("{lookup,t,'\\a'}", Reason::BadEscape, 0),
    ("{lookup,t,\"\\a\"}", Reason::BadEscape, 0),
    ("{lookup,t,é}", Reason::NotPrintable, 0),
    ("{lookup,t,;}", Reason::Unexpected, 0),
    ("{lookup,t,a}.", Reason::Unexpected, 0),
    ("{ets:lookup,t,a}", Reason::Unexpected, 0),
    ("{lookup,t,+1}", Reason::Unexpected, 0),
    ("{lookup,t", Reason::Unexpected, 0),
    ("", Reason::Unexpected, 0),
];

fn store() -> Store {
    let store = Store::with_limits(Limits { processes: 2, tables: 4, objects: 4 }).unwrap();
    store.spawn_as(0).unwrap();
    store.spawn_as(1).unwrap();
    for (pid, call) in [(0, "{new,t,[named_table]}"), (0, "{insert,t,{a,1,x}}"), (0, "{new,b,[named_table,bag]}")] {
        store.call(pid, call).unwrap();
    }
    store.call(1, "{new,p,[named_table,private]}").unwrap();
    store.call(1, "{new,q,[named_table]}").unwrap();
    store
}

#[test]
fn refused_calls_have_their_reason() {
    let store = store();
    for (call, reason, argument) in REFUSED {
        let error = store.call(0, call).unwrap_err();
        let number = Some(argument).filter(|number| *number > 0);
        assert_eq!((error.reason(), error.argument()), (reason, number), "{call}: {error}");
        let words = reason.to_string();
        let is_alike = error.text().ends_with(&words)
            || [Reason::BadEscape, Reason::NotPrintable, Reason::Unexpected].contains(&reason);
        assert!(is_alike, "{call}: {error}: {words}");
    }
}

#[test]
fn refused_bytes_and_terms_have_their_reason() {
    let store = store();
    for (bytes, reason) in [
        (&b"\x83h"[..], Reason::Truncated),
        (b"\x82j", Reason::BadVersion),
        (b"\x83h\x02w\x06lookupF", Reason::UnsupportedTag),
        (b"\x83h\x02w\x06lookupl\0\0\0\x01a\x01a\x02", Reason::ImproperList),
        (b"\x83h\x02w\x06lookupn\x11\0\0\0\0\0\0\0\0\0\0\0\0\0\0\0\0\0\0\x01", Reason::IntegerRange),
        (b"\x83h\x02w\x06lookupXw\x01a\0\0\0\x09\0\0\0\0\0\0\0\0", Reason::OtherNode),
        (b"\x83j", Reason::NotACall),
        (b"\x83h\x02w\x07receivejj", Reason::TrailingBytes),
    ] {
        assert_eq!(store.call_external(0, bytes).unwrap_err().reason(), reason);
    }
    let deep = (0..200).fold(term!([]), |inner, _| term!([inner]));
    assert_eq!(store.ask(0, "lookup", &[term!(:t), deep]).unwrap_err().reason(), Reason::TooDeep);
    let long = "a".repeat(256);
    assert_eq!(store.call(0, &format!("{{lookup,t,{long}}}")).unwrap_err().reason(), Reason::LongAtom);
    assert_eq!(store.ask(0, &long, &[]).unwrap_err().reason(), Reason::BadAtom);
}

#[test]
fn refused_processes_have_their_reason() {
    let store = store();
    assert_eq!(store.spawn_as(1).unwrap_err().reason(), Reason::ProcessUsed);
    assert_eq!(store.spawn_as(2).unwrap_err().reason(), Reason::ProcessLimit);
    let error = store.call(2, "{receive}").unwrap_err();
    assert_eq!((error.kind(), error.reason()), (ErrorKind::NoProcess, Reason::NoProcess));
}
