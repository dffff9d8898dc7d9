//! The parts of heads, conditions and results.
use crate::atom::Atom;
use crate::element::Element;
use crate::id::{Pid, TableId};
use crate::term::Term;
use std::fmt;

/// A part of a head, a condition or a result: a gap, or a function of parts. Its methods are the functions of match
/// specifications; `+`, `-`, `*`, `/` (whole division), `%` and `!` work too. A number may be on the left of an
/// operator; a literal there has a suffix, so that methods of the result are found.
///
/// A value is a part too, and is itself. A tuple or array of parts makes the tuple or list of their values.
///
/// ```
/// use yoyoash::spec::{var, Expr};
/// use yoyoash::term;
///
/// assert_eq!(((var(1) + 1) * 2).to_string(), "{'*',{'+','$1',1},2}");
/// assert_eq!((100_i64 - var(1)).to_string(), "{'-',100,'$1'}");
/// assert_eq!(var(1).lt(5).and_also(!var(2)).to_string(), "{andalso,{'<','$1',5},{not,'$2'}}");
/// assert_eq!(Expr::from((var(1), [var(2)])).to_string(), "{{'$1',['$2']}}");
/// assert_eq!(Expr::from(term!({:a, :"$1"})).to_string(), "{const,{a,'$1'}}");
/// ```
#[derive(Clone, PartialEq, Eq)]
pub struct Expr(Term);

/// Returns a gap: it matches every term.
///
/// ```
/// use yoyoash::spec::any;
/// use yoyoash::Term;
///
/// assert_eq!(Term::from(("apple", any())).elements().unwrap()[1].to_string(), "'_'");
/// ```
pub fn any() -> Expr {
    Expr(Term::Atom("_".to_owned()))
}

/// Returns the gap with a number. In one head it matches the same term everywhere. Elsewhere it is that term. A number
/// above 100,000,000 makes a malformed specification.
///
/// ```
/// use yoyoash::spec::var;
///
/// assert_eq!(var(1).to_string(), "'$1'");
/// ```
pub fn var(number: u32) -> Expr {
    Expr(Term::Atom(format!("${number}")))
}

/// Returns the part whose value is the object.
///
/// ```
/// use yoyoash::spec::{object, var, Clause};
///
/// let clause = Clause::new((var(1), 30)).returns((var(1), object()));
/// assert_eq!(clause.to_string(), "{{'$1',30},[],[{{'$1','$_'}}]}");
/// ```
pub fn object() -> Expr {
    Expr(Term::Atom("$_".to_owned()))
}

/// Returns the part whose value is the list of all gaps with numbers, in the order of these.
///
/// ```
/// use yoyoash::spec::{bindings, var, Clause};
///
/// let clause = Clause::new((var(1), var(2))).returns(bindings());
/// assert_eq!(clause.to_string(), "{{'$1','$2'},[],['$$']}");
/// ```
pub fn bindings() -> Expr {
    Expr(Term::Atom("$$".to_owned()))
}

impl Expr {
    /// Returns a function of parts.
    pub(crate) fn of(function: &str, arguments: impl IntoIterator<Item = Expr>) -> Expr {
        let name = Term::Atom(function.to_owned());
        Expr(Term::Tuple([name].into_iter().chain(arguments.into_iter().map(Term::from)).collect()))
    }
}

impl fmt::Display for Expr {
    fn fmt(&self, f: &mut fmt::Formatter<'_>) -> fmt::Result {
        self.0.fmt(f)
    }
}

impl fmt::Debug for Expr {
    fn fmt(&self, f: &mut fmt::Formatter<'_>) -> fmt::Result {
        fmt::Display::fmt(self, f)
    }
}

/// The part as a term, for heads.
impl From<Expr> for Term {
    fn from(part: Expr) -> Term {
        part.0
    }
}

impl Element for Expr {}

/// The value itself, whatever it is.
impl From<Term> for Expr {
    fn from(value: Term) -> Expr {
        match value {
            Term::Int(_) | Term::Binary(_) | Term::Pid(_) | Term::Tid(_) => Expr(value),
            _ => Expr::of("const", [Expr(value)]),
        }
    }
}

impl From<bool> for Expr {
    fn from(is_true: bool) -> Expr {
        Expr(is_true.into())
    }
}

macro_rules! values {
    ($($type:ty),*) => {
        $(impl From<$type> for Expr {
            fn from(value: $type) -> Expr {
                Term::from(value).into()
            }
        })*
    };
}

values!(i8, i16, i32, i64, i128, isize, u8, u16, u32, u64, usize);
values!(&str, String, &String, &[u8], Atom, &Atom, Pid, TableId, &TableId, &Term);

impl<T: Into<Expr>, const N: usize> From<[T; N]> for Expr {
    fn from(parts: [T; N]) -> Expr {
        Expr(parts.into_iter().map(|part| Term::from(part.into())).collect())
    }
}

macro_rules! tuples {
    ($($type:ident $part:ident)*) => {
        impl<$($type: Into<Expr>),*> From<($($type,)*)> for Expr {
            fn from(($($part,)*): ($($type,)*)) -> Expr {
                let parts: Vec<Expr> = vec![$($part.into()),*];
                Expr(Term::Tuple(vec![Term::Tuple(parts.into_iter().map(Term::from).collect())]))
            }
        }
    };
}

tuples!(A a);
tuples!(A a B b);
tuples!(A a B b C c);
tuples!(A a B b C c D d);
tuples!(A a B b C c D d E e);
tuples!(A a B b C c D d E e F f);
tuples!(A a B b C c D d E e F f G g);
tuples!(A a B b C c D d E e F f G g H h);
