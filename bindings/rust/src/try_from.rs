//! Terms as values of Rust.
use crate::atom::Atom;
use crate::id::{Pid, TableId};
use crate::term::Term;
use std::convert::Infallible;
use std::fmt;

/// A term that is not a value of the type asked for. It says what was expected, and what the term is.
///
/// ```
/// use yoyoash::Term;
///
/// let error = u8::try_from(Term::Int(300)).unwrap_err();
/// assert_eq!(error.to_string(), "expected u8, found an integer out of its range");
/// let error = <(String, i64)>::try_from(Term::from("apple")).unwrap_err();
/// assert_eq!(error.to_string(), "expected a tuple of 2 elements, found a binary");
/// ```
#[derive(Clone, Copy, Debug, PartialEq, Eq)]
pub struct TryFromTermError {
    expected: &'static str,
    found: &'static str,
}

impl TryFromTermError {
    pub(crate) fn new(expected: &'static str, found: &Term) -> TryFromTermError {
        TryFromTermError { expected, found: kind_of(found) }
    }
}

impl fmt::Display for TryFromTermError {
    fn fmt(&self, f: &mut fmt::Formatter<'_>) -> fmt::Result {
        write!(f, "expected {}, found {}", self.expected, self.found)
    }
}

impl std::error::Error for TryFromTermError {}

/// A term is always a term.
impl From<Infallible> for TryFromTermError {
    fn from(never: Infallible) -> TryFromTermError {
        match never {}
    }
}

fn kind_of(term: &Term) -> &'static str {
    match term {
        Term::Int(_) => "an integer",
        Term::Atom(_) => "an atom",
        Term::Pid(_) => "a pid",
        Term::Tid(_) => "the identifier of a table",
        Term::Tuple(_) => "a tuple",
        Term::List(_) => "a list",
        Term::Binary(_) => "a binary",
    }
}

macro_rules! integers {
    ($($type:ty),*) => {
        $(impl TryFrom<Term> for $type {
            type Error = TryFromTermError;

            fn try_from(term: Term) -> Result<$type, TryFromTermError> {
                let expected = stringify!($type);
                let number = term.as_int().ok_or_else(|| TryFromTermError::new(expected, &term))?;
                let error = TryFromTermError { expected, found: "an integer out of its range" };
                <$type>::try_from(number).map_err(|_| error)
            }
        })*
    };
}

integers!(i8, i16, i32, i64, i128, isize, u8, u16, u32, u64, usize);

macro_rules! others {
    ($($type:ty, $expected:literal, $term:ident => $value:expr;)*) => {
        $(impl TryFrom<Term> for $type {
            type Error = TryFromTermError;

            fn try_from($term: Term) -> Result<$type, TryFromTermError> {
                let error = TryFromTermError::new($expected, &$term);
                $value.ok_or(error)
            }
        })*
    };
}

others! {
    bool, "true or false", term => term.as_bool();
    String, "a binary in UTF-8", term => term.into_binary().and_then(|bytes| String::from_utf8(bytes).ok());
    Atom, "an atom", term => term.into_atom().map(Atom::from);
    Pid, "a pid", term => term.as_pid();
    TableId, "the name or identifier of a table", term => term.as_table();
    (), "a tuple of 0 elements", term => term.as_tuple().filter(|elements| elements.is_empty()).map(|_| ());
}

macro_rules! tuples {
    ($count:literal $expected:literal $($type:ident $part:ident)*) => {
        impl<$($type),*> TryFrom<Term> for ($($type,)*)
        where
            $($type: TryFrom<Term>, TryFromTermError: From<<$type as TryFrom<Term>>::Error>,)*
        {
            type Error = TryFromTermError;

            fn try_from(term: Term) -> Result<($($type,)*), TryFromTermError> {
                let error = TryFromTermError::new($expected, &term);
                let is_tuple = term.as_tuple().is_some();
                let elements = term.into_elements().filter(|_| is_tuple).ok_or(error)?;
                let [$($part),*]: [Term; $count] = elements.try_into().map_err(|_| TryFromTermError {
                    expected: $expected,
                    found: "a tuple of another length",
                })?;
                Ok(($($type::try_from($part)?,)*))
            }
        }
    };
}

tuples!(1 "a tuple of 1 element" A a);
tuples!(2 "a tuple of 2 elements" A a B b);
tuples!(3 "a tuple of 3 elements" A a B b C c);
tuples!(4 "a tuple of 4 elements" A a B b C c D d);
tuples!(5 "a tuple of 5 elements" A a B b C c D d E e);
tuples!(6 "a tuple of 6 elements" A a B b C c D d E e F f);
tuples!(7 "a tuple of 7 elements" A a B b C c D d E e F f G g);
tuples!(8 "a tuple of 8 elements" A a B b C c D d E e F f G g H h);
