//! Tests of terms made from values of Rust, and read as values again.
use std::fmt::Debug;
use yoyoash::{term, Atom, Pid, TableId, Term, TryFromTermError};

/// Checks the text of the term of a value, and that the term gives the value back.
fn both_ways<T>(value: T, text: &str)
where
    T: Into<Term> + TryFrom<Term, Error = TryFromTermError> + Clone + PartialEq + Debug,
{
    let term: Term = value.clone().into();
    assert_eq!(term.to_string(), text);
    assert_eq!(T::try_from(term), Ok(value));
}

fn refused<T: TryFrom<Term, Error = TryFromTermError> + Debug>(term: Term, problem: &str) {
    assert_eq!(T::try_from(term).unwrap_err().to_string(), problem);
}

#[test]
fn integers_are_integers() {
    both_ways(i8::MIN, "-128");
    both_ways(i16::MIN, "-32768");
    both_ways(i32::MIN, "-2147483648");
    both_ways(i64::MIN, "-9223372036854775808");
    both_ways(isize::MIN, "-9223372036854775808");
    both_ways(i128::MAX, "170141183460469231731687303715884105727");
    both_ways(u8::MAX, "255");
    both_ways(u16::MAX, "65535");
    both_ways(u32::MAX, "4294967295");
    both_ways(u64::MAX, "18446744073709551615");
    both_ways(usize::MAX, "18446744073709551615");
}

#[test]
fn other_values_have_their_terms() {
    both_ways(true, "true");
    both_ways("häh".to_owned(), "<<104,195,164,104>>");
    both_ways(Atom::new("it's"), "'it\\'s'");
    both_ways(Pid::new(7), "<0.7.0>");
    both_ways(TableId::Number(7), "#Tid<7>");
    both_ways(TableId::from("prices"), "prices");
    both_ways(vec![0_u8, 255], "<<0,255>>");
    both_ways(vec![0_u16, 255], "[0,255]");
    both_ways(vec![vec![1_u8], vec![]], "[<<1>>,<<>>]");
    both_ways((), "{}");
    both_ways((1, "a".to_owned(), vec![(true,)]), "{1,<<97>>,[{true}]}");
    both_ways((1, 2, 3, 4, 5, 6, 7, 8), "{1,2,3,4,5,6,7,8}");
    for (term, text) in
        [(b"\x00\xff".into(), "<<0,255>>"), (Term::from(&b"a"[..]), "<<97>>"), ([b'a', b'b'].into(), "<<97,98>>")]
    {
        assert_eq!(term.to_string(), text);
    }
    assert_eq!(Term::from((Some(1), None::<&str>)).to_string(), "{1,undefined}");
}

#[test]
fn terms_stay_terms_in_tuples_and_vectors() {
    let term = term!({:apple, [{1}, "a"]});
    let (name, rest): (Atom, Vec<Term>) = term.try_into().unwrap();
    assert_eq!((name.as_str(), rest), ("apple", vec![term!({ 1 }), term!("a")]));
}

#[test]
fn other_terms_are_refused_with_what_they_are() {
    refused::<u8>(term!(-1), "expected u8, found an integer out of its range");
    refused::<i64>(term!(i128::MAX), "expected i64, found an integer out of its range");
    refused::<i64>(term!("1"), "expected i64, found a binary");
    refused::<bool>(term!(:apple), "expected true or false, found an atom");
    refused::<String>(term!(b"\xff"), "expected a binary in UTF-8, found a binary");
    refused::<String>(term!(:apple), "expected a binary in UTF-8, found an atom");
    refused::<Pid>(term!({}), "expected a pid, found a tuple");
    refused::<Vec<u8>>(term!([1]), "expected a binary, found a list");
    refused::<Vec<u16>>(term!({ 1 }), "expected a list, found a tuple");
    refused::<Vec<u16>>(term!([1, :a]), "expected u16, found an atom");
    refused::<(i64, i64)>(term!([1, 2]), "expected a tuple of 2 elements, found a list");
    refused::<(i64, i64)>(term!({1, 2, 3}), "expected a tuple of 2 elements, found a tuple of another length");
    refused::<(i64, i64)>(term!({1, Term::Tid(3)}), "expected i64, found the identifier of a table");
}

#[test]
fn the_macro_writes_nested_terms() {
    let (name, codes) = ("apple", vec![1_u8]);
    let term = term!([
        {:a, :"it's", :type, {}}, [[], [name.len()],], -1, (1 + 1), codes, name == "apple", if true { 1 } else { 2 },
    ]);
    assert_eq!(term.to_string(), "[{a,'it\\'s',type,{}},[[],[5]],-1,2,<<1>>,true,1]");
    assert_eq!(term!(:undefined), None::<i64>.into());
}
