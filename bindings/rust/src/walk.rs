//! Goes over terms without recursion, so that no term overflows the stack, however deep it is.
use crate::term::Term;
use std::hash::{Hash, Hasher};
use std::mem::{self, discriminant};
use std::slice;

/// What a traversal meets: a term, and a tuple or list again after its elements.
pub(crate) enum Visit<'a> {
    Enter(&'a Term),
    Leave(&'a Term),
}

/// A traversal of terms and of all terms in them, in the order of their text.
pub(crate) struct Walk<'a> {
    rest: slice::Iter<'a, Term>,
    /// The tuples and lists that were entered and not left, each with the elements that are left to visit.
    open: Vec<(&'a Term, slice::Iter<'a, Term>)>,
}

impl<'a> Walk<'a> {
    pub fn over(terms: &'a [Term]) -> Walk<'a> {
        Walk { rest: terms.iter(), open: Vec::new() }
    }

    pub fn of(term: &'a Term) -> Walk<'a> {
        Walk::over(slice::from_ref(term))
    }

    /// Goes past the elements of the tuple or list that was entered last, and past its end.
    pub fn skip_elements(&mut self) {
        self.open.pop();
    }
}

impl<'a> Iterator for Walk<'a> {
    type Item = Visit<'a>;

    fn next(&mut self) -> Option<Visit<'a>> {
        let rest = self.open.last_mut().map_or(&mut self.rest, |(_, rest)| rest);
        let term = match rest.next() {
            Some(term) => term,
            None => return self.open.pop().map(|(term, _)| Visit::Leave(term)),
        };
        if let Some(elements) = term.elements() {
            self.open.push((term, elements.iter()));
        }
        Some(Visit::Enter(term))
    }
}

impl Clone for Term {
    fn clone(&self) -> Term {
        let mut open: Vec<Vec<Term>> = Vec::new();
        let mut whole = None;
        for visit in Walk::of(self) {
            let copy = match visit {
                Visit::Enter(Term::Tuple(elements) | Term::List(elements)) => {
                    open.push(Vec::with_capacity(elements.len()));
                    continue;
                }
                Visit::Enter(Term::Int(number)) => Term::Int(*number),
                Visit::Enter(Term::Atom(text)) => Term::Atom(text.clone()),
                Visit::Enter(Term::Pid(number)) => Term::Pid(*number),
                Visit::Enter(Term::Tid(number)) => Term::Tid(*number),
                Visit::Enter(Term::Binary(bytes)) => Term::Binary(bytes.clone()),
                Visit::Leave(Term::Tuple(_)) => Term::Tuple(open.pop().unwrap_or_default()),
                Visit::Leave(_) => Term::List(open.pop().unwrap_or_default()),
            };
            match open.last_mut() {
                Some(row) => row.push(copy),
                None => whole = Some(copy),
            }
        }
        whole.expect("a traversal has the term itself")
    }
}

impl PartialEq for Term {
    fn eq(&self, other: &Term) -> bool {
        Walk::of(self).zip(Walk::of(other)).all(|pair| match pair {
            (Visit::Enter(one), Visit::Enter(other)) => is_alike(one, other),
            // Both traversals leave together, since all lengths before were the same.
            _ => true,
        })
    }
}

/// Returns whether two terms are the same up to the elements of tuples and lists.
fn is_alike(one: &Term, other: &Term) -> bool {
    match (one, other) {
        (Term::Int(one), Term::Int(other)) => one == other,
        (Term::Atom(one), Term::Atom(other)) => one == other,
        (Term::Pid(one), Term::Pid(other)) | (Term::Tid(one), Term::Tid(other)) => one == other,
        (Term::Binary(one), Term::Binary(other)) => one == other,
        (Term::Tuple(one), Term::Tuple(other)) | (Term::List(one), Term::List(other)) => one.len() == other.len(),
        _ => false,
    }
}

impl Eq for Term {}

impl Hash for Term {
    fn hash<H: Hasher>(&self, state: &mut H) {
        for visit in Walk::of(self) {
            let term = match visit {
                Visit::Enter(term) => term,
                Visit::Leave(_) => continue,
            };
            discriminant(term).hash(state);
            match term {
                Term::Int(number) => number.hash(state),
                Term::Atom(text) => text.hash(state),
                Term::Pid(number) | Term::Tid(number) => number.hash(state),
                Term::Tuple(elements) | Term::List(elements) => elements.len().hash(state),
                Term::Binary(bytes) => bytes.hash(state),
            }
        }
    }
}

impl Drop for Term {
    #[inline]
    fn drop(&mut self) {
        if let Term::Tuple(elements) | Term::List(elements) = self {
            if !elements.is_empty() {
                clear(elements, MAX_RECURSION);
            }
        }
    }
}

/// The most levels that are dropped by recursion, which takes no memory.
const MAX_RECURSION: usize = 32;

/// Drops these terms, with at most this many levels of recursion.
fn clear(terms: &mut Vec<Term>, levels: usize) {
    while let Some(mut term) = terms.pop() {
        match &mut term {
            Term::Tuple(elements) | Term::List(elements) if !elements.is_empty() => match levels {
                0 => clear_deep(mem::take(elements)),
                _ => clear(elements, levels - 1),
            },
            _ => {}
        }
    }
}

/// Drops these terms without recursion.
fn clear_deep(terms: Vec<Term>) {
    let mut open = vec![terms];
    while let Some(row) = open.last_mut() {
        match row.pop() {
            Some(Term::Tuple(ref mut elements) | Term::List(ref mut elements)) => open.push(mem::take(elements)),
            Some(_) => {}
            None => drop(open.pop()),
        }
    }
}
