//! Tests of terms in Erlang's External Term Format.
use yoyoash::Term;

/// Pairs of a term's text and its bytes in hexadecimal digits, as Erlang's `term_to_binary` writes them.
const WRITTEN: [(&str, &str); 24] = [
    ("7", "836107"),
    ("255", "8361ff"),
    ("256", "836200000100"),
    ("-1", "8362ffffffff"),
    ("2147483647", "83627fffffff"),
    ("2147483648", "836e040000000080"),
    ("-2147483648", "836280000000"),
    ("-2147483649", "836e040101000080"),
    ("170141183460469231731687303715884105727", "836e1000ffffffffffffffffffffffffffffff7f"),
    ("-170141183460469231731687303715884105728", "836e100100000000000000000000000000000080"),
    ("''", "837700"),
    ("apple", "8377056170706c65"),
    ("<0.9.0>", "8358770d6e6f6e6f6465406e6f686f7374000000090000000000000000"),
    ("#Tid<7>", "835a0001770d6e6f6e6f6465406e6f686f73740000000000000007"),
    ("{}", "836800"),
    ("{a,b}", "836802770161770162"),
    ("[]", "836a"),
    ("[104,105]", "836b00026869"),
    ("[256]", "836c0000000162000001006a"),
    ("[1,-1]", "836c00000002610162ffffffff6a"),
    ("[[]]", "836c000000016a6a"),
    ("[a,b]", "836c000000027701617701626a"),
    ("<<>>", "836d00000000"),
    ("<<0,255>>", "836d0000000200ff"),
];

fn bytes_of(digits: &str) -> Vec<u8> {
    (0..digits.len() / 2).map(|at| u8::from_str_radix(&digits[2 * at..2 * at + 2], 16).unwrap()).collect()
}

#[test]
fn terms_are_written_as_erlang_writes_them_and_read_again() {
    for (text, digits) in WRITTEN {
        let term: Term = text.parse().unwrap();
        assert_eq!(term.to_external(), Ok(bytes_of(digits)), "{text}");
        assert_eq!(Term::from_external(&bytes_of(digits)), Ok(term), "{text}");
    }
}

#[test]
fn other_forms_are_read() {
    for (digits, text) in [
        ("836e0100ff", "255"),
        ("836e0001", "0"),
        ("836e100005000000000000000000000000000000", "5"),
        ("8369000000016a", "{[]}"),
        ("837300", "''"),
        ("8376000161", "a"),
        ("8364000161", "a"),
        ("836b0000", "[]"),
        ("836c000000006a", "[]"),
        ("8367770d6e6f6e6f6465406e6f686f7374000000090000000000", "<0.9.0>"),
        ("8358730d6e6f6e6f6465406e6f686f7374ffffffff0000000000000000", "<0.4294967295.0>"),
        ("83720002770d6e6f6e6f6465406e6f686f7374000000000700000000", "#Tid<7>"),
        ("8365770d6e6f6e6f6465406e6f686f73740000000700", "#Tid<7>"),
    ] {
        let read = Term::from_external(&bytes_of(digits));
        assert_eq!(read.map(|term| term.to_string()), Ok(text.to_owned()), "{digits}");
    }
}

#[test]
fn faults_have_their_offset() {
    for (digits, offset) in [
        ("", 0),
        ("82", 0),
        ("83", 1),
        ("8362000000", 2),
        ("836d00000003aabb", 6),
        ("836cffffffff6101", 6),
        ("834600", 1),
        ("836c0000000161016102", 8),
        ("837702c3a4", 1),
        ("836e110001", 4),
        ("836e1000ffffffffffffffffffffffffffffffff", 1),
        ("836e1001010000000000000000000000000000ff", 1),
        ("836e1100000000000000000000000000000000000000", 1),
        ("8358770d6e6f6e6f6465406e6f686f7374000000090000000000000001", 1),
        ("8358770161000000090000000000000000", 1),
        ("835861", 2),
        ("835a0000", 1),
        ("836802616107ff", 5),
        ("83610700", 3),
    ] {
        assert_eq!(Term::from_external(&bytes_of(digits)).unwrap_err().offset(), offset, "{digits}");
    }
}

#[test]
fn long_terms_and_deep_terms_are_read_again() {
    let codes = |count| Term::List(vec![Term::Int(1); count]);
    for (count, tag) in [(255, 104), (256, 105)] {
        let bytes = Term::Tuple(vec![Term::Int(1); count]).to_external().unwrap();
        assert_eq!((bytes[1], Term::from_external(&bytes)), (tag, Ok(Term::Tuple(vec![Term::Int(1); count]))));
    }
    for (count, tag) in [(65_535, 107), (65_536, 108)] {
        let bytes = codes(count).to_external().unwrap();
        assert_eq!((bytes[1], Term::from_external(&bytes)), (tag, Ok(codes(count))));
    }
    let deep = |levels| (1..levels).fold(Term::Int(0), |inner, _| Term::Tuple(vec![inner]));
    assert_eq!(Term::from_external(&deep(256).to_external().unwrap()), Ok(deep(256)));
    assert_eq!(Term::from_external(&deep(257).to_external().unwrap()).unwrap_err().problem(), "too many levels");
}

#[test]
fn atoms_that_the_store_cannot_have_are_not_written() {
    assert!(Term::Atom("a".repeat(255)).to_external().is_ok());
    for text in ["a".repeat(256), "ä".to_owned(), "a\n".to_owned()] {
        let error = Term::List(vec![Term::Int(300), Term::Atom(text)]).to_external().unwrap_err();
        assert_eq!((error.offset(), error.problem()), (11, "not an atom of at most 255 printable ASCII characters"));
    }
}

#[test]
fn no_bytes_make_the_reader_panic() {
    let (_, digits) = WRITTEN[12];
    for (at, bit) in (0..bytes_of(digits).len()).flat_map(|at| (0..8).map(move |bit| (at, bit))) {
        let mut changed = bytes_of(digits);
        changed[at] ^= 1 << bit;
        let _ = Term::from_external(&changed);
        let _ = Term::from_external(&changed[..at]);
    }
}
