//! What is in a term.
use crate::atom::Atom;
use crate::id::{Pid, TableId};
use crate::term::Term;
use std::mem;

impl Term {
    /// Returns whether this is the atom `true`.
    ///
    /// ```
    /// assert!(yoyoash::Term::from(true).is_true());
    /// ```
    pub fn is_true(&self) -> bool {
        self.as_atom() == Some("true")
    }

    /// Returns the number of an integer.
    ///
    /// ```
    /// assert_eq!(yoyoash::Term::from(30).as_int(), Some(30));
    /// ```
    pub fn as_int(&self) -> Option<i128> {
        match self {
            Term::Int(number) => Some(*number),
            _ => None,
        }
    }

    /// Returns the truth of the atom `true` or `false`.
    ///
    /// ```
    /// use yoyoash::{Atom, Term};
    ///
    /// assert_eq!(Term::from(false).as_bool(), Some(false));
    /// assert_eq!(Term::from(Atom::new("apple")).as_bool(), None);
    /// ```
    pub fn as_bool(&self) -> Option<bool> {
        self.as_atom().and_then(|text| text.parse().ok())
    }

    /// Returns the text of an atom.
    ///
    /// ```
    /// use yoyoash::{Atom, Term};
    ///
    /// assert_eq!(Term::from(Atom::new("apple")).as_atom(), Some("apple"));
    /// ```
    pub fn as_atom(&self) -> Option<&str> {
        match self {
            Term::Atom(text) => Some(text),
            _ => None,
        }
    }

    /// Returns the bytes of a binary.
    ///
    /// ```
    /// assert_eq!(yoyoash::Term::from("ab").as_bytes(), Some(&[97, 98][..]));
    /// ```
    pub fn as_bytes(&self) -> Option<&[u8]> {
        match self {
            Term::Binary(bytes) => Some(bytes),
            _ => None,
        }
    }

    /// Returns the text of a binary, if it is in UTF-8.
    ///
    /// ```
    /// assert_eq!(yoyoash::Term::from("apple").as_str(), Some("apple"));
    /// assert_eq!(yoyoash::Term::from(b"\xff").as_str(), None);
    /// ```
    pub fn as_str(&self) -> Option<&str> {
        std::str::from_utf8(self.as_bytes()?).ok()
    }

    /// Returns the identifier of a process.
    ///
    /// ```
    /// use yoyoash::{Pid, Term};
    ///
    /// assert_eq!(Term::Pid(7).as_pid(), Some(Pid::new(7)));
    /// ```
    pub fn as_pid(&self) -> Option<Pid> {
        match self {
            Term::Pid(number) => Some(Pid::new(*number)),
            _ => None,
        }
    }

    /// Returns what names a table: of an atom its name, of the identifier of a table its number.
    ///
    /// ```
    /// use yoyoash::{TableId, Term};
    ///
    /// assert_eq!(Term::Tid(7).as_table(), Some(TableId::Number(7)));
    /// ```
    pub fn as_table(&self) -> Option<TableId> {
        match self {
            Term::Atom(text) => Some(TableId::Name(Atom::new(text.as_str()))),
            Term::Tid(number) => Some(TableId::Number(*number)),
            _ => None,
        }
    }

    /// Returns the elements of a tuple.
    ///
    /// ```
    /// let object = yoyoash::Term::from(("apple", 30));
    /// assert_eq!(object.as_tuple().map(|elements| elements.len()), Some(2));
    /// ```
    pub fn as_tuple(&self) -> Option<&[Term]> {
        match self {
            Term::Tuple(elements) => Some(elements),
            _ => None,
        }
    }

    /// Returns the elements of a list.
    ///
    /// ```
    /// assert_eq!(yoyoash::Term::from([1, 2]).as_list().map(|elements| elements.len()), Some(2));
    /// ```
    pub fn as_list(&self) -> Option<&[Term]> {
        match self {
            Term::List(elements) => Some(elements),
            _ => None,
        }
    }

    /// Returns the elements of a tuple or list.
    ///
    /// ```
    /// assert_eq!(yoyoash::Term::from((1, 2)).elements().map(|elements| elements.len()), Some(2));
    /// ```
    pub fn elements(&self) -> Option<&[Term]> {
        self.as_tuple().or_else(|| self.as_list())
    }

    /// Returns the elements of a tuple or list, without a copy.
    ///
    /// ```
    /// use yoyoash::Term;
    ///
    /// assert_eq!(Term::from((1, 2)).into_elements(), Some(vec![Term::Int(1), Term::Int(2)]));
    /// ```
    pub fn into_elements(mut self) -> Option<Vec<Term>> {
        match &mut self {
            Term::Tuple(elements) | Term::List(elements) => Some(mem::take(elements)),
            _ => None,
        }
    }

    /// Returns the bytes of a binary, without a copy.
    ///
    /// ```
    /// assert_eq!(yoyoash::Term::from("ab").into_binary(), Some(vec![97, 98]));
    /// ```
    pub fn into_binary(mut self) -> Option<Vec<u8>> {
        match &mut self {
            Term::Binary(bytes) => Some(mem::take(bytes)),
            _ => None,
        }
    }

    /// Returns the text of an atom, without a copy.
    ///
    /// ```
    /// assert_eq!(yoyoash::Term::from(true).into_atom(), Some("true".to_owned()));
    /// ```
    pub fn into_atom(mut self) -> Option<String> {
        match &mut self {
            Term::Atom(text) => Some(mem::take(text)),
            _ => None,
        }
    }

    /// Returns `None` for the atom `undefined`, else the term.
    ///
    /// ```
    /// use yoyoash::Term;
    ///
    /// assert_eq!(Term::from(None::<i64>).into_option(), None);
    /// assert_eq!(Term::from(Some(30)).into_option(), Some(Term::Int(30)));
    /// ```
    pub fn into_option(self) -> Option<Term> {
        if self.as_atom() == Some("undefined") {
            None
        } else {
            Some(self)
        }
    }
}
