//! Tables that are fixed for a traversal.
use crate::error::Error;
use crate::table::Table;
use crate::term::Term;
use std::ops::Deref;
use std::vec;

/// A guard that keeps a table fixed, and releases it when it is dropped. It is a `&Table` too.
///
/// ```
/// # use yoyoash::{Options, Store};
/// # let prices = Store::new().unwrap().spawn().unwrap().new_table("prices", Options::new()).unwrap();
/// prices.insert_all([("apple", 30), ("pear", 40)]).unwrap();
/// let mut sum = 0;
/// for object in &prices.fix().unwrap() {
///     let (_name, price): (String, i64) = object.unwrap().try_into().unwrap();
///     sum += price;
/// }
/// assert_eq!(sum, 70);
/// ```
#[derive(Debug)]
#[must_use = "the table is released when the guard is dropped"]
pub struct Fixed<'a> {
    table: &'a Table,
}

impl<'a> Fixed<'a> {
    pub(crate) fn of(table: &'a Table) -> Result<Fixed<'a>, Error> {
        table.safe_fixtable(true)?;
        Ok(Fixed { table })
    }

    /// Returns an iterator over the objects.
    ///
    /// ```
    /// # use yoyoash::{Options, Store};
    /// # let prices = Store::new().unwrap().spawn().unwrap().new_table("prices", Options::new()).unwrap();
    /// prices.insert(("apple", 30)).unwrap();
    /// let objects: Result<Vec<_>, _> = prices.fix().unwrap().iter().collect();
    /// assert_eq!(objects.unwrap(), [("apple", 30).into()]);
    /// ```
    pub fn iter(&self) -> Objects<'_> {
        Objects { table: self.table, at: Place::Start, objects: vec![].into_iter() }
    }

    /// Returns an iterator over the keys.
    ///
    /// ```
    /// # use yoyoash::{Options, Store};
    /// # let prices = Store::new().unwrap().spawn().unwrap().new_table("prices", Options::new()).unwrap();
    /// prices.insert(("apple", 30)).unwrap();
    /// let keys: Result<Vec<_>, _> = prices.fix().unwrap().keys().collect();
    /// assert_eq!(keys.unwrap(), ["apple".into()]);
    /// ```
    pub fn keys(&self) -> Keys<'_> {
        Keys { table: self.table, at: Place::Start }
    }
}

impl Deref for Fixed<'_> {
    type Target = Table;

    fn deref(&self) -> &Table {
        self.table
    }
}

impl Drop for Fixed<'_> {
    fn drop(&mut self) {
        // (a fix ends by itself with the table and with the process, and then this is refused)
        let _ = self.table.safe_fixtable(false);
    }
}

impl<'a> IntoIterator for &'a Fixed<'_> {
    type Item = Result<Term, Error>;
    type IntoIter = Objects<'a>;

    fn into_iter(self) -> Objects<'a> {
        self.iter()
    }
}

/// How far a traversal is.
#[derive(Debug)]
enum Place {
    Start,
    After(Term),
    End,
}

impl Place {
    /// Goes on by a call that begins, or by one that goes on after a key.
    fn go<T>(
        &mut self,
        begin: impl FnOnce() -> Result<Option<T>, Error>,
        go_on: impl FnOnce(&Term) -> Result<Option<T>, Error>,
        key: impl FnOnce(&T) -> Term,
    ) -> Option<Result<T, Error>> {
        let found = match self {
            Place::Start => begin(),
            Place::After(key) => go_on(key),
            Place::End => Ok(None),
        };
        *self = match &found {
            Ok(Some(next)) => Place::After(key(next)),
            _ => Place::End,
        };
        found.transpose()
    }
}

/// An iterator over the objects of a fixed table, in the order of their keys in the table. It ends after an error.
///
/// ```
/// # use yoyoash::{Options, Store};
/// # let routes = Store::new().unwrap().spawn().unwrap().new_table("routes", Options::new().bag()).unwrap();
/// routes.insert_all([("home", 1), ("home", 2)]).unwrap();
/// assert_eq!(routes.fix().unwrap().iter().count(), 2);
/// ```
#[derive(Debug)]
pub struct Objects<'a> {
    table: &'a Table,
    at: Place,
    objects: vec::IntoIter<Term>,
}

impl Iterator for Objects<'_> {
    type Item = Result<Term, Error>;

    fn next(&mut self) -> Option<Result<Term, Error>> {
        let table = self.table;
        loop {
            if let Some(object) = self.objects.next() {
                return Some(Ok(object));
            }
            match self.at.go(|| table.first_lookup(), |key| table.next_lookup(key), |(key, _)| key.clone())? {
                Ok((_, objects)) => self.objects = objects.into_iter(),
                Err(error) => return Some(Err(error)),
            }
        }
    }
}

/// An iterator over the keys of a fixed table. It ends after an error.
///
/// ```
/// # use yoyoash::{Options, Store};
/// # let routes = Store::new().unwrap().spawn().unwrap().new_table("routes", Options::new().bag()).unwrap();
/// routes.insert_all([("home", 1), ("home", 2)]).unwrap();
/// assert_eq!(routes.fix().unwrap().keys().count(), 1);
/// ```
#[derive(Debug)]
pub struct Keys<'a> {
    table: &'a Table,
    at: Place,
}

impl Iterator for Keys<'_> {
    type Item = Result<Term, Error>;

    fn next(&mut self) -> Option<Result<Term, Error>> {
        let table = self.table;
        self.at.go(|| table.first(), |key| table.next(key), Term::clone)
    }
}
