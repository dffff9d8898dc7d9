//! Vectors as terms: lists, and of bytes, binaries.
use crate::atom::Atom;
use crate::id::{Pid, TableId};
use crate::term::Term;
use crate::try_from::TryFromTermError;

/// A type whose vectors are terms. A `Vec<u8>` is a binary, and every other `Vec` a list.
///
/// Implement it for a type of your own that converts into terms, to convert its vectors too:
///
/// ```
/// use yoyoash::{Element, Term};
///
/// struct Price(u32);
///
/// impl From<Price> for Term {
///     fn from(price: Price) -> Term {
///         price.0.into()
///     }
/// }
///
/// impl Element for Price {}
///
/// assert_eq!(Term::from(vec![Price(30), Price(400)]).to_string(), "[30,400]");
/// assert_eq!(Term::from(vec![30_u8, 40]).to_string(), "<<30,40>>");
/// ```
pub trait Element: Sized {
    /// Returns the term of a vector: a list, if the type does not say otherwise.
    ///
    /// ```
    /// use yoyoash::Element;
    ///
    /// assert_eq!(bool::vec_into_term(vec![true, false]).to_string(), "[true,false]");
    /// ```
    fn vec_into_term(elements: Vec<Self>) -> Term
    where
        Self: Into<Term>,
    {
        Term::List(elements.into_iter().map(Into::into).collect())
    }

    /// Returns the vector of a term: of a list, if the type does not say otherwise.
    ///
    /// ```
    /// use yoyoash::{Element, Term};
    ///
    /// let list: Term = "[true,false]".parse().unwrap();
    /// assert_eq!(bool::vec_from_term(list), Ok(vec![true, false]));
    /// ```
    fn vec_from_term(term: Term) -> Result<Vec<Self>, TryFromTermError>
    where
        Self: TryFrom<Term>,
        TryFromTermError: From<<Self as TryFrom<Term>>::Error>,
    {
        match &term {
            Term::List(_) => {}
            _ => return Err(TryFromTermError::new("a list", &term)),
        }
        let elements = term.into_elements().unwrap_or_default();
        elements.into_iter().map(|element| Self::try_from(element).map_err(TryFromTermError::from)).collect()
    }
}

impl Element for u8 {
    fn vec_into_term(bytes: Vec<u8>) -> Term {
        Term::Binary(bytes)
    }

    fn vec_from_term(term: Term) -> Result<Vec<u8>, TryFromTermError> {
        let error = TryFromTermError::new("a binary", &term);
        term.into_binary().ok_or(error)
    }
}

macro_rules! elements {
    ($($type:ty),*) => { $(impl Element for $type {})* };
}

elements!(i8, i16, i32, i64, i128, isize, u16, u32, u64, usize, bool, &str, String, Atom, Pid, TableId, Term, ());

impl<T> Element for Vec<T> {}

impl<T> Element for Option<T> {}

macro_rules! tuples_are_elements {
    ($($type:ident)*) => { impl<$($type),*> Element for ($($type,)*) {} };
}

tuples_are_elements!(A);
tuples_are_elements!(A B);
tuples_are_elements!(A B C);
tuples_are_elements!(A B C D);
tuples_are_elements!(A B C D E);
tuples_are_elements!(A B C D E F);
tuples_are_elements!(A B C D E F G);
tuples_are_elements!(A B C D E F G H);

impl<T: Element + Into<Term>> From<Vec<T>> for Term {
    fn from(elements: Vec<T>) -> Term {
        T::vec_into_term(elements)
    }
}

impl<T: Element + Into<Term>, const N: usize> From<[T; N]> for Term {
    fn from(elements: [T; N]) -> Term {
        T::vec_into_term(elements.into())
    }
}

impl<T> TryFrom<Term> for Vec<T>
where
    T: Element + TryFrom<Term>,
    TryFromTermError: From<<T as TryFrom<Term>>::Error>,
{
    type Error = TryFromTermError;

    fn try_from(term: Term) -> Result<Vec<T>, TryFromTermError> {
        T::vec_from_term(term)
    }
}

/// A list of these elements, also of bytes.
///
/// ```
/// use yoyoash::Term;
///
/// assert_eq!((1..4).collect::<Term>().to_string(), "[1,2,3]");
/// ```
impl<T: Into<Term>> FromIterator<T> for Term {
    fn from_iter<I: IntoIterator<Item = T>>(elements: I) -> Term {
        Term::List(elements.into_iter().map(Into::into).collect())
    }
}
