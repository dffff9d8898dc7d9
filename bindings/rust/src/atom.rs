//! Atoms: names that are values.
use crate::term::{self, Term};
use std::fmt;

/// An atom: a name that is a value, such as `apple`. Two atoms are equal if their texts are.
///
/// The store takes atoms of at most 255 printable ASCII characters. It refuses a call with any other atom, with
/// [`Reason::BadAtom`](crate::Reason::BadAtom). A text of Rust becomes a binary, not an atom.
///
/// ```
/// use yoyoash::{Atom, Term};
///
/// let apple = Atom::new("apple");
/// assert_eq!(apple.as_str(), "apple");
/// assert_eq!(Term::from(apple).to_string(), "apple");
/// assert_eq!(Atom::new("Big apple").to_string(), "'Big apple'");
/// ```
#[derive(Clone, Debug, PartialEq, Eq, PartialOrd, Ord, Hash)]
pub struct Atom(String);

impl Atom {
    /// Returns the atom with this text.
    ///
    /// ```
    /// assert_eq!(yoyoash::Atom::new("apple"), "apple".into());
    /// ```
    pub fn new(text: impl Into<String>) -> Atom {
        Atom(text.into())
    }

    /// Returns the text of the atom, without quotes.
    ///
    /// ```
    /// assert_eq!(yoyoash::Atom::new("Big apple").as_str(), "Big apple");
    /// ```
    pub fn as_str(&self) -> &str {
        &self.0
    }
}

impl fmt::Display for Atom {
    fn fmt(&self, f: &mut fmt::Formatter<'_>) -> fmt::Result {
        term::write_atom(f, &self.0)
    }
}

impl From<&str> for Atom {
    fn from(text: &str) -> Atom {
        Atom::new(text)
    }
}

impl From<String> for Atom {
    fn from(text: String) -> Atom {
        Atom(text)
    }
}

impl From<&Atom> for Atom {
    fn from(atom: &Atom) -> Atom {
        atom.clone()
    }
}

impl From<Atom> for Term {
    fn from(atom: Atom) -> Term {
        Term::Atom(atom.0)
    }
}

impl From<&Atom> for Term {
    fn from(atom: &Atom) -> Term {
        Term::Atom(atom.0.clone())
    }
}
