//! Tests of the text of terms.
use yoyoash::Term;

#[test]
fn printed_terms_are_read_as_themselves() {
    let deep = (0..100).fold(Term::Int(i128::MIN), |inner, _| Term::List(vec![inner]));
    let terms = [
        Term::Int(i128::MAX),
        Term::Atom(String::new()),
        Term::Atom("plain_1@x".to_owned()),
        Term::Atom("it's \\ quoted".to_owned()),
        Term::Pid(7),
        Term::Tid(0),
        Term::Tuple(vec![]),
        Term::List(vec![Term::Binary(vec![]), Term::Binary(vec![1, 2])]),
        deep,
    ];
    for term in terms {
        assert_eq!(term.to_string().parse(), Ok(term.clone()), "{term}");
    }
}

#[test]
fn other_spellings_are_read() {
    for (text, printed) in [
        (" { a , [ ] } ", "{a,[]}"),
        ("\"a\\\"b\"", "[97,34,98]"),
        ("<< 1 , 2 >>", "<<1,2>>"),
        ("<<\"ab\">>", "<<97,98>>"),
        ("-007", "-7"),
    ] {
        assert_eq!(text.parse::<Term>().map(|term| term.to_string()), Ok(printed.to_owned()), "{text}");
    }
}

#[test]
fn faults_have_their_offset() {
    for (text, offset) in [
        ("", 0),
        ("{a", 2),
        ("[a|b]", 2),
        ("Apple", 0),
        ("'a", 2),
        ("'\\x'", 2),
        ("<<256>>", 2),
        ("a b", 2),
        ("1.5", 1),
        ("{a,}", 3),
    ] {
        assert_eq!(text.parse::<Term>().unwrap_err().offset(), offset, "{text}");
    }
}
