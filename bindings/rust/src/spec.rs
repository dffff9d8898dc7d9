//! Patterns and match specifications, made without a text.
//!
//! A *pattern* is an object with gaps: [`any`] is a gap, and [`var`] a gap with a number, whose value conditions and
//! results can use. A [`Clause`] has a pattern as its head, conditions, and a result.
//!
//! ```
//! use yoyoash::spec::{any, var, Clause};
//! use yoyoash::{Options, Store};
//!
//! # fn main() -> Result<(), yoyoash::Error> {
//! let sessions = Store::new()?.spawn()?.new_table("sessions", Options::new())?;
//! sessions.insert_all([("s1", "anna", 160), ("s2", "ben", 170)])?;
//!
//! let ended = Clause::new((any(), any(), var(1))).when(var(1).lt(165));
//! assert_eq!(sessions.select_count(ended.clone())?, 1);
//! assert_eq!(sessions.select(ended.clone())?, [("s1", "anna", 160).into()]);
//!
//! let ages = Clause::new((var(1), any(), var(2))).returns((var(1), var(2) - 100));
//! assert_eq!(sessions.select_delete(ended)?, 1);
//! assert_eq!(sessions.select(ages)?, [("s2", 70).into()]);
//! # Ok(())
//! # }
//! ```
//!
//! An atom in a head that begins with `$` or is `_` is a gap too, also if it comes from data. Texts, numbers and
//! binaries are themselves. In conditions and results all data is itself.
use crate::term::Term;
use std::fmt;

mod expr;
mod functions;

pub use expr::{any, bindings, object, var, Expr};

/// A clause of a match specification. For each object, the first clause counts whose head matches, and whose conditions
/// are all true.
///
/// ```
/// use yoyoash::spec::{any, var, Clause};
///
/// let clause = Clause::new((any(), var(1))).when(var(1).gt(35)).when(var(1).lt(45)).returns(var(1));
/// assert_eq!(clause.to_string(), "{{'_','$1'},[{'>','$1',35},{'<','$1',45}],['$1']}");
/// ```
#[derive(Clone, PartialEq, Eq)]
pub struct Clause {
    head: Term,
    conditions: Vec<Term>,
    body: Option<Term>,
}

impl Clause {
    /// Returns the clause with this head, without conditions.
    ///
    /// ```
    /// use yoyoash::spec::{any, Clause};
    ///
    /// assert_eq!(Clause::new((any(), 30)).to_string(), "{{'_',30},[],['$_']}");
    /// ```
    pub fn new(head: impl Into<Term>) -> Clause {
        Clause { head: head.into(), conditions: vec![], body: None }
    }

    /// Adds a condition.
    ///
    /// ```
    /// use yoyoash::spec::{any, var, Clause};
    ///
    /// let clause = Clause::new((any(), var(1))).when(var(1).gt(35));
    /// assert_eq!(clause.to_string(), "{{'_','$1'},[{'>','$1',35}],['$_']}");
    /// ```
    pub fn when(mut self, condition: impl Into<Expr>) -> Clause {
        self.conditions.push(condition.into().into());
        self
    }

    /// Sets the result. Without it the result is the object, and in `select_count` and `select_delete` it is `true`.
    ///
    /// ```
    /// use yoyoash::spec::{any, var, Clause};
    ///
    /// let clause = Clause::new((any(), var(1))).returns((var(1), "cheap"));
    /// assert_eq!(clause.to_string(), "{{'_','$1'},[],[{{'$1',<<99,104,101,97,112>>}}]}");
    /// ```
    pub fn returns(mut self, result: impl Into<Expr>) -> Clause {
        self.body = Some(result.into().into());
        self
    }

    fn into_term(self, result: impl FnOnce() -> Term) -> Term {
        (self.head, self.conditions, [self.body.unwrap_or_else(result)]).into()
    }
}

impl fmt::Display for Clause {
    fn fmt(&self, f: &mut fmt::Formatter<'_>) -> fmt::Result {
        self.clone().into_term(|| object().into()).fmt(f)
    }
}

impl fmt::Debug for Clause {
    fn fmt(&self, f: &mut fmt::Formatter<'_>) -> fmt::Result {
        fmt::Display::fmt(self, f)
    }
}

/// A match specification: a list of clauses. One clause is a specification too.
///
/// ```
/// # use yoyoash::{Options, Store};
/// use yoyoash::spec::{any, var, Clause, Spec};
///
/// # let prices = Store::new().unwrap().spawn().unwrap().new_table("prices", Options::new()).unwrap();
/// prices.insert_all([("apple", 30), ("pear", 40)]).unwrap();
/// let cheap = Clause::new((var(1), var(2))).when(var(2).lt(35)).returns("cheap");
/// let other = Clause::new(any()).returns("dear");
/// let results = prices.select(Spec::from([cheap, other])).unwrap();
/// assert_eq!(results.iter().filter(|it| it.as_str() == Some("cheap")).count(), 1);
/// ```
#[derive(Clone, Debug, PartialEq, Eq)]
pub struct Spec(Vec<Clause>);

impl Spec {
    pub(crate) fn returning_objects(self) -> Term {
        Term::List(self.0.into_iter().map(|clause| clause.into_term(|| object().into())).collect())
    }

    pub(crate) fn returning_true(self) -> Term {
        Term::List(self.0.into_iter().map(|clause| clause.into_term(|| true.into())).collect())
    }
}

impl From<Clause> for Spec {
    fn from(clause: Clause) -> Spec {
        Spec(vec![clause])
    }
}

impl From<Vec<Clause>> for Spec {
    fn from(clauses: Vec<Clause>) -> Spec {
        Spec(clauses)
    }
}

impl<const N: usize> From<[Clause; N]> for Spec {
    fn from(clauses: [Clause; N]) -> Spec {
        Spec(clauses.into())
    }
}
