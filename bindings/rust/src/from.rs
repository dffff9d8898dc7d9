//! Values of Rust as terms.
use crate::term::Term;

macro_rules! integers {
    ($($type:ty),*) => {
        $(impl From<$type> for Term {
            fn from(number: $type) -> Term {
                // (no integer of 64 bits is out of range)
                Term::Int(number as i128)
            }
        })*
    };
}

integers!(i8, i16, i32, i64, i128, isize, u8, u16, u32, u64, usize);

/// The atom `true` or `false`.
impl From<bool> for Term {
    fn from(is_true: bool) -> Term {
        Term::Atom(is_true.to_string())
    }
}

/// A binary with the bytes of the text. An atom is an [`Atom`](crate::Atom).
impl From<&str> for Term {
    fn from(text: &str) -> Term {
        Term::Binary(text.as_bytes().to_vec())
    }
}

/// A binary with the bytes of the text.
impl From<String> for Term {
    fn from(text: String) -> Term {
        Term::Binary(text.into_bytes())
    }
}

/// A binary with the bytes of the text.
impl From<&String> for Term {
    fn from(text: &String) -> Term {
        Term::from(text.as_str())
    }
}

/// A binary.
impl From<&[u8]> for Term {
    fn from(bytes: &[u8]) -> Term {
        Term::Binary(bytes.to_vec())
    }
}

/// A binary, as of `b"bytes"`.
impl<const N: usize> From<&[u8; N]> for Term {
    fn from(bytes: &[u8; N]) -> Term {
        Term::Binary(bytes.to_vec())
    }
}

/// A copy.
impl From<&Term> for Term {
    fn from(term: &Term) -> Term {
        term.clone()
    }
}

/// The term of the value, or the atom `undefined` for `None`. [`Term::into_option`] is the way back.
impl<T: Into<Term>> From<Option<T>> for Term {
    fn from(value: Option<T>) -> Term {
        value.map_or_else(|| Term::Atom("undefined".to_owned()), Into::into)
    }
}

/// The tuple without elements.
impl From<()> for Term {
    fn from((): ()) -> Term {
        Term::Tuple(vec![])
    }
}

macro_rules! tuples {
    ($($type:ident $part:ident)*) => {
        impl<$($type: Into<Term>),*> From<($($type,)*)> for Term {
            fn from(($($part,)*): ($($type,)*)) -> Term {
                Term::Tuple(vec![$($part.into()),*])
            }
        }
    };
}

tuples!(A a);
tuples!(A a B b);
tuples!(A a B b C c);
tuples!(A a B b C c D d);
tuples!(A a B b C c D d E e);
tuples!(A a B b C c D d E e F f);
tuples!(A a B b C c D d E e F f G g);
tuples!(A a B b C c D d E e F f G g H h);
