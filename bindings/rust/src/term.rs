//! Erlang terms, as the store knows them.
use crate::walk::{Visit, Walk};
use std::fmt;

/// A term: a value of Erlang. `Display` and `Debug` print it as the store does, and `FromStr` reads what the store
/// reads.
///
/// Integers, `bool`, texts, byte strings, tuples, vectors and options of Rust convert into terms with `into`, and back
/// with `try_into`. A text is a binary; an [`Atom`](crate::Atom) is an atom. The macro [`term!`](crate::term!) writes
/// any term.
///
/// ```
/// use yoyoash::{term, Term};
///
/// let term = term!({:apple, [1, -2], :"Big atom", "ab"});
/// assert_eq!(term.to_string(), "{apple,[1,-2],'Big atom',<<97,98>>}");
/// assert_eq!(term.to_string().parse(), Ok(term));
///
/// let (name, price): (String, i64) = Term::from(("apple", 30)).try_into().unwrap();
/// assert_eq!((name.as_str(), price), ("apple", 30));
/// ```
///
/// A term may be of any depth; none of its methods overflows the stack. The store itself refuses an argument with more
/// than 128 levels.
///
/// As a term has a `Drop`, a pattern borrows what is in it: `match &term`. `into_elements`, `into_binary` and
/// `into_atom` move it out:
///
/// ```
/// use yoyoash::Term;
///
/// let found: Term = "[{apple,30},{pear,40}]".parse().unwrap();
/// let objects = found.into_elements().unwrap();
/// assert_eq!(objects.len(), 2);
/// ```
pub enum Term {
    /// An integer of 128 bits.
    Int(i128),
    /// An atom: at most 255 printable ASCII characters.
    Atom(String),
    /// A process of the store.
    Pid(u32),
    /// The identifier of a table.
    Tid(u32),
    /// A tuple.
    Tuple(Vec<Term>),
    /// A proper list. A string is the list of its characters' codes.
    List(Vec<Term>),
    /// A binary.
    Binary(Vec<u8>),
}

impl fmt::Display for Term {
    fn fmt(&self, f: &mut fmt::Formatter<'_>) -> fmt::Result {
        let mut needs_comma = false;
        for visit in Walk::of(self) {
            match visit {
                Visit::Enter(term) => {
                    f.write_str(if needs_comma { "," } else { "" })?;
                    write_start(f, term)?;
                    needs_comma = term.elements().is_none();
                }
                Visit::Leave(term) => {
                    f.write_str(if matches!(term, Term::Tuple(_)) { "}" } else { "]" })?;
                    needs_comma = true;
                }
            }
        }
        Ok(())
    }
}

impl fmt::Debug for Term {
    fn fmt(&self, f: &mut fmt::Formatter<'_>) -> fmt::Result {
        fmt::Display::fmt(self, f)
    }
}

/// Writes a term, and of a tuple or list the opening bracket.
fn write_start(f: &mut fmt::Formatter<'_>, term: &Term) -> fmt::Result {
    match term {
        Term::Int(number) => write!(f, "{number}"),
        Term::Atom(text) => write_atom(f, text),
        Term::Pid(number) => write!(f, "<0.{number}.0>"),
        Term::Tid(number) => write!(f, "#Tid<{number}>"),
        Term::Tuple(_) => f.write_str("{"),
        Term::List(_) => f.write_str("["),
        Term::Binary(bytes) => write_binary(f, bytes),
    }
}

fn write_binary(f: &mut fmt::Formatter<'_>, bytes: &[u8]) -> fmt::Result {
    f.write_str("<<")?;
    for (place, byte) in bytes.iter().enumerate() {
        f.write_str(if place > 0 { "," } else { "" })?;
        write!(f, "{byte}")?;
    }
    f.write_str(">>")
}

/// Writes an atom, in quotes if it needs them.
pub(crate) fn write_atom(f: &mut fmt::Formatter<'_>, text: &str) -> fmt::Result {
    let is_plain = text.starts_with(|c: char| c.is_ascii_lowercase()) && text.bytes().all(is_name_byte);
    if is_plain {
        return f.write_str(text);
    }
    f.write_str("'")?;
    for character in text.chars() {
        if matches!(character, '\'' | '\\') {
            f.write_str("\\")?;
        }
        write!(f, "{character}")?;
    }
    f.write_str("'")
}

pub(crate) fn is_name_byte(byte: u8) -> bool {
    byte.is_ascii_alphanumeric() || matches!(byte, b'_' | b'@')
}
