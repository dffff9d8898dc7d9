//! Calls that change elements of an object. They are for sets.
use super::Table;
use crate::error::Error;
use crate::reply;
use crate::term::Term;

/// What [`Table::update_counter`] adds, and where. An integer is an update too: it goes to the element after the key.
///
/// ```
/// # use yoyoash::{Options, Store};
/// use yoyoash::Update;
///
/// # let hits = Store::new().unwrap().spawn().unwrap().new_table("hits", Options::new()).unwrap();
/// hits.insert(("home", 8, 0)).unwrap();
/// assert_eq!(hits.update_counter("home", Update::at(3, 1)).unwrap(), Some(1));
/// assert_eq!(hits.update_counter("home", Update::at(2, 5).with_threshold(10, 0)).unwrap(), Some(0));
/// ```
#[derive(Clone, Debug, PartialEq, Eq)]
pub struct Update(Term);

impl Update {
    /// Adds to the element at a position. The first position is 1.
    ///
    /// ```
    /// # use yoyoash::{Options, Store, Update};
    /// # let hits = Store::new().unwrap().spawn().unwrap().new_table("hits", Options::new()).unwrap();
    /// hits.insert(("home", 8, 0)).unwrap();
    /// assert_eq!(hits.update_counter("home", Update::at(3, -1)).unwrap(), Some(-1));
    /// ```
    pub fn at(position: usize, increment: impl Into<i128>) -> Update {
        Update((position, increment.into()).into())
    }

    /// Writes this value in place of a sum that is greater than the threshold, or less if the increment is negative.
    ///
    /// ```
    /// # use yoyoash::{Options, Store, Update};
    /// # let hits = Store::new().unwrap().spawn().unwrap().new_table("hits", Options::new()).unwrap();
    /// hits.insert(("home", 9)).unwrap();
    /// let update = Update::at(2, 1).with_threshold(10, 0);
    /// assert_eq!(hits.update_counter("home", update.clone()).unwrap(), Some(10));
    /// assert_eq!(hits.update_counter("home", update).unwrap(), Some(0));
    /// ```
    pub fn with_threshold(self, threshold: impl Into<i128>, value: impl Into<i128>) -> Update {
        let mut parts = self.0.into_elements().unwrap_or_default();
        parts.truncate(2);
        parts.extend([threshold.into().into(), value.into().into()]);
        Update(Term::Tuple(parts))
    }
}

macro_rules! integers {
    ($($type:ty),*) => {
        $(impl From<$type> for Update {
            fn from(increment: $type) -> Update {
                Update(increment.into())
            }
        })*
    };
}

integers!(i8, i16, i32, i64, i128, isize, u8, u16, u32, u64, usize);

impl From<Update> for Term {
    fn from(update: Update) -> Term {
        update.0
    }
}

/// Returns the list of updates.
fn all<T: Into<Update>>(updates: impl IntoIterator<Item = T>) -> Term {
    updates.into_iter().map(Into::into).collect()
}

impl Table {
    /// Adds to an element of the object of a key, in one step. Returns the new value, or nothing if the key has no
    /// object.
    ///
    /// ```
    /// # use yoyoash::{Options, Store};
    /// # let hits = Store::new().unwrap().spawn().unwrap().new_table("hits", Options::new()).unwrap();
    /// hits.insert(("home", 8)).unwrap();
    /// assert_eq!(hits.update_counter("home", 1).unwrap(), Some(9));
    /// assert_eq!(hits.update_counter("other", 1).unwrap(), None);
    /// ```
    pub fn update_counter(&self, key: impl Into<Term>, update: impl Into<Update>) -> Result<Option<i128>, Error> {
        let reply = self.ask("update_counter", &[key.into(), update.into().into()]);
        reply::unless_missing(reply)?.map(reply::integer).transpose()
    }

    /// Does the same, with this object if the key has none. The key goes into the object.
    ///
    /// ```
    /// # use yoyoash::{Options, Store};
    /// # let hits = Store::new().unwrap().spawn().unwrap().new_table("hits", Options::new()).unwrap();
    /// assert_eq!(hits.update_counter_or("home", 1, ("", 0)).unwrap(), 1);
    /// assert_eq!(hits.update_counter_or("home", 1, ("", 0)).unwrap(), 2);
    /// ```
    pub fn update_counter_or(
        &self,
        key: impl Into<Term>,
        update: impl Into<Update>,
        default: impl Into<Term>,
    ) -> Result<i128, Error> {
        reply::integer(self.ask("update_counter", &[key.into(), update.into().into(), default.into()])?)
    }

    /// Makes several updates of the object of a key in one step, all or none. Returns the new values, or nothing if the
    /// key has no object. Each update is one of [`Update::at`].
    ///
    /// ```
    /// # use yoyoash::{Options, Store, Update};
    /// # let hits = Store::new().unwrap().spawn().unwrap().new_table("hits", Options::new()).unwrap();
    /// hits.insert(("home", 8, 0)).unwrap();
    /// let values = hits.update_counters("home", [Update::at(2, 1), Update::at(3, 5)]).unwrap();
    /// assert_eq!(values, Some(vec![9, 5]));
    /// ```
    pub fn update_counters<T: Into<Update>>(
        &self,
        key: impl Into<Term>,
        updates: impl IntoIterator<Item = T>,
    ) -> Result<Option<Vec<i128>>, Error> {
        let reply = self.ask("update_counter", &[key.into(), all(updates)]);
        reply::unless_missing(reply)?.map(reply::integers).transpose()
    }

    /// Does the same, with this object if the key has none.
    ///
    /// ```
    /// # use yoyoash::{Options, Store, Update};
    /// # let hits = Store::new().unwrap().spawn().unwrap().new_table("hits", Options::new()).unwrap();
    /// let values = hits.update_counters_or("home", [Update::at(2, 1), Update::at(3, 5)], ("", 0, 0)).unwrap();
    /// assert_eq!(values, [1, 5]);
    /// ```
    pub fn update_counters_or<T: Into<Update>>(
        &self,
        key: impl Into<Term>,
        updates: impl IntoIterator<Item = T>,
        default: impl Into<Term>,
    ) -> Result<Vec<i128>, Error> {
        reply::integers(self.ask("update_counter", &[key.into(), all(updates), default.into()])?)
    }

    /// Replaces an element of the object of a key. Returns whether the key has an object.
    ///
    /// ```
    /// # use yoyoash::{Options, Store};
    /// # let prices = Store::new().unwrap().spawn().unwrap().new_table("prices", Options::new()).unwrap();
    /// prices.insert(("apple", 30)).unwrap();
    /// assert!(prices.update_element("apple", 2, 31).unwrap());
    /// assert!(!prices.update_element("pear", 2, 40).unwrap());
    /// ```
    pub fn update_element(&self, key: impl Into<Term>, position: usize, value: impl Into<Term>) -> Result<bool, Error> {
        self.update_elements(key, [(position, value)])
    }

    /// Replaces several elements of the object of a key, all or none. Returns whether the key has an object.
    ///
    /// ```
    /// # use yoyoash::{Options, Store};
    /// # let prices = Store::new().unwrap().spawn().unwrap().new_table("prices", Options::new()).unwrap();
    /// prices.insert(("apple", 30, "red")).unwrap();
    /// assert!(prices.update_elements("apple", [(2, "thirty"), (3, "green")]).unwrap());
    /// ```
    pub fn update_elements<T: Into<Term>>(
        &self,
        key: impl Into<Term>,
        values: impl IntoIterator<Item = (usize, T)>,
    ) -> Result<bool, Error> {
        reply::flag(self.ask("update_element", &[key.into(), values.into_iter().collect()])?)
    }

    /// Replaces elements of the object of a key, of this object if the key has none. The key goes into the object.
    ///
    /// ```
    /// # use yoyoash::{Options, Store};
    /// # let prices = Store::new().unwrap().spawn().unwrap().new_table("prices", Options::new()).unwrap();
    /// prices.update_elements_or("apple", [(2, 31)], ("", 0, "red")).unwrap();
    /// assert_eq!(prices.lookup("apple").unwrap(), [("apple", 31, "red").into()]);
    /// ```
    pub fn update_elements_or<T: Into<Term>>(
        &self,
        key: impl Into<Term>,
        values: impl IntoIterator<Item = (usize, T)>,
        default: impl Into<Term>,
    ) -> Result<(), Error> {
        reply::done(self.ask("update_element", &[key.into(), values.into_iter().collect(), default.into()])?)
    }
}
