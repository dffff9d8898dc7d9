//! Calls that go through a table key by key.
use super::Table;
use crate::error::Error;
use crate::fixed::Fixed;
use crate::reply;
use crate::term::Term;

impl Table {
    /// Fixes the table until the guard is dropped. A traversal of a fixed table visits each key that stays exactly
    /// once, while others insert and delete.
    ///
    /// ```
    /// # use yoyoash::{Options, Store};
    /// # let prices = Store::new().unwrap().spawn().unwrap().new_table("prices", Options::new()).unwrap();
    /// prices.insert_all([("apple", 30), ("pear", 40)]).unwrap();
    /// let fixed = prices.fix().unwrap();
    /// for key in fixed.keys() {
    ///     prices.delete(key.unwrap()).unwrap();
    /// }
    /// drop(fixed);
    /// assert_eq!(prices.size().unwrap(), Some(0));
    /// ```
    pub fn fix(&self) -> Result<Fixed<'_>, Error> {
        Fixed::of(self)
    }

    /// Adds a fix of the process, or removes one. [`fix`](Table::fix) returns a guard that does both.
    ///
    /// ```
    /// # use yoyoash::{Item, Options, Store};
    /// # let prices = Store::new().unwrap().spawn().unwrap().new_table("prices", Options::new()).unwrap();
    /// prices.safe_fixtable(true).unwrap();
    /// assert!(prices.info(Item::Fixed).unwrap().unwrap().is_true());
    /// prices.safe_fixtable(false).unwrap();
    /// ```
    pub fn safe_fixtable(&self, fix: bool) -> Result<(), Error> {
        reply::done(self.ask("safe_fixtable", &[fix.into()])?)
    }

    /// Returns the first key, or nothing if there are no objects.
    ///
    /// ```
    /// # use yoyoash::{Options, Store};
    /// # let prices = Store::new().unwrap().spawn().unwrap().new_table("prices", Options::new()).unwrap();
    /// assert_eq!(prices.first().unwrap(), None);
    /// prices.insert(("apple", 30)).unwrap();
    /// assert_eq!(prices.first().unwrap(), Some("apple".into()));
    /// ```
    pub fn first(&self) -> Result<Option<Term>, Error> {
        Ok(reply::key(self.ask("first", &[])?))
    }

    /// Returns the key after a key, or nothing after the last one. A key that has no objects is refused, unless it was
    /// deleted while the table was fixed.
    ///
    /// ```
    /// # use yoyoash::{Options, Reason, Store};
    /// # let prices = Store::new().unwrap().spawn().unwrap().new_table("prices", Options::new()).unwrap();
    /// prices.insert(("apple", 30)).unwrap();
    /// assert_eq!(prices.next("apple").unwrap(), None);
    /// assert_eq!(prices.next("pear").unwrap_err().reason(), Reason::NoKey);
    /// ```
    pub fn next(&self, key: impl Into<Term>) -> Result<Option<Term>, Error> {
        Ok(reply::key(self.ask("next", &[key.into()])?))
    }

    /// Returns the first key and its objects, or nothing if there are no objects.
    ///
    /// ```
    /// # use yoyoash::{Options, Store};
    /// # let prices = Store::new().unwrap().spawn().unwrap().new_table("prices", Options::new()).unwrap();
    /// prices.insert(("apple", 30)).unwrap();
    /// let (key, objects) = prices.first_lookup().unwrap().unwrap();
    /// assert_eq!((key, objects), ("apple".into(), vec![("apple", 30).into()]));
    /// ```
    pub fn first_lookup(&self) -> Result<Option<(Term, Vec<Term>)>, Error> {
        reply::entry(self.ask("first_lookup", &[])?)
    }

    /// Returns the key after a key and its objects, or nothing after the last one. Refuses what [`next`](Table::next)
    /// refuses.
    ///
    /// ```
    /// # use yoyoash::{Options, Store};
    /// # let prices = Store::new().unwrap().spawn().unwrap().new_table("prices", Options::new()).unwrap();
    /// prices.insert(("apple", 30)).unwrap();
    /// assert_eq!(prices.next_lookup("apple").unwrap(), None);
    /// ```
    pub fn next_lookup(&self, key: impl Into<Term>) -> Result<Option<(Term, Vec<Term>)>, Error> {
        reply::entry(self.ask("next_lookup", &[key.into()])?)
    }
}
