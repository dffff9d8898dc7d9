//! Calls on the objects of a table.
use super::Table;
use crate::error::Error;
use crate::reply;
use crate::term::Term;

impl Table {
    /// Inserts an object, a tuple. In a set it replaces the object with the same key.
    ///
    /// ```
    /// # use yoyoash::{term, Options, Store};
    /// # let prices = Store::new().unwrap().spawn().unwrap().new_table("prices", Options::new()).unwrap();
    /// prices.insert(("apple", 30)).unwrap();
    /// prices.insert(term!({:pear, 40, ["green", "ripe"]})).unwrap();
    /// assert_eq!(prices.size().unwrap(), Some(2));
    /// ```
    pub fn insert(&self, object: impl Into<Term>) -> Result<(), Error> {
        reply::done(self.ask("insert", &[object.into()])?)
    }

    /// Inserts objects, all or none.
    ///
    /// ```
    /// # use yoyoash::{Options, Store};
    /// # let prices = Store::new().unwrap().spawn().unwrap().new_table("prices", Options::new()).unwrap();
    /// prices.insert_all([("apple", 30), ("pear", 40)]).unwrap();
    /// assert_eq!(prices.size().unwrap(), Some(2));
    /// ```
    pub fn insert_all<T: Into<Term>>(&self, objects: impl IntoIterator<Item = T>) -> Result<(), Error> {
        self.insert(objects.into_iter().collect::<Term>())
    }

    /// Inserts an object if its key has no object. Returns whether it did.
    ///
    /// ```
    /// # use yoyoash::{Options, Store};
    /// # let prices = Store::new().unwrap().spawn().unwrap().new_table("prices", Options::new()).unwrap();
    /// assert!(prices.insert_new(("apple", 30)).unwrap());
    /// assert!(!prices.insert_new(("apple", 31)).unwrap());
    /// ```
    pub fn insert_new(&self, object: impl Into<Term>) -> Result<bool, Error> {
        reply::flag(self.ask("insert_new", &[object.into()])?)
    }

    /// Inserts objects if none of their keys has an object. Returns whether it did.
    ///
    /// ```
    /// # use yoyoash::{Options, Store};
    /// # let prices = Store::new().unwrap().spawn().unwrap().new_table("prices", Options::new()).unwrap();
    /// prices.insert(("apple", 30)).unwrap();
    /// assert!(!prices.insert_all_new([("pear", 40), ("apple", 31)]).unwrap());
    /// assert!(!prices.member("pear").unwrap());
    /// ```
    pub fn insert_all_new<T: Into<Term>>(&self, objects: impl IntoIterator<Item = T>) -> Result<bool, Error> {
        self.insert_new(objects.into_iter().collect::<Term>())
    }

    /// Returns the objects of a key, oldest first: in a set, one or none.
    ///
    /// ```
    /// # use yoyoash::{Options, Store};
    /// # let prices = Store::new().unwrap().spawn().unwrap().new_table("prices", Options::new()).unwrap();
    /// prices.insert(("apple", 30)).unwrap();
    /// for object in prices.lookup("apple").unwrap() {
    ///     let (name, price): (String, i64) = object.try_into().unwrap();
    ///     assert_eq!((name.as_str(), price), ("apple", 30));
    /// }
    /// assert_eq!(prices.lookup("pear").unwrap(), []);
    /// ```
    pub fn lookup(&self, key: impl Into<Term>) -> Result<Vec<Term>, Error> {
        reply::list(self.ask("lookup", &[key.into()])?)
    }

    /// Returns whether a key has objects.
    ///
    /// ```
    /// # use yoyoash::{Options, Store};
    /// # let prices = Store::new().unwrap().spawn().unwrap().new_table("prices", Options::new()).unwrap();
    /// assert!(!prices.member("apple").unwrap());
    /// ```
    pub fn member(&self, key: impl Into<Term>) -> Result<bool, Error> {
        reply::flag(self.ask("member", &[key.into()])?)
    }

    /// Returns an element of the object of a key, or nothing if the key has no object. In a bag, returns the list of
    /// these elements of all objects of the key. The first position is 1.
    ///
    /// ```
    /// # use yoyoash::{Options, Store};
    /// # let prices = Store::new().unwrap().spawn().unwrap().new_table("prices", Options::new()).unwrap();
    /// prices.insert(("apple", 30)).unwrap();
    /// assert_eq!(prices.lookup_element("apple", 2).unwrap(), Some(30.into()));
    /// assert_eq!(prices.lookup_element("pear", 2).unwrap(), None);
    /// ```
    pub fn lookup_element(&self, key: impl Into<Term>, position: usize) -> Result<Option<Term>, Error> {
        reply::unless_missing(self.ask("lookup_element", &[key.into(), position.into()]))
    }

    /// Returns the same, or this default if the key has no object.
    ///
    /// ```
    /// # use yoyoash::{Options, Store};
    /// # let prices = Store::new().unwrap().spawn().unwrap().new_table("prices", Options::new()).unwrap();
    /// assert_eq!(prices.lookup_element_or("pear", 2, 0).unwrap(), 0.into());
    /// ```
    pub fn lookup_element_or(
        &self,
        key: impl Into<Term>,
        position: usize,
        default: impl Into<Term>,
    ) -> Result<Term, Error> {
        self.ask("lookup_element", &[key.into(), position.into(), default.into()])
    }

    /// Deletes the objects of a key, and returns them.
    ///
    /// ```
    /// # use yoyoash::{Options, Store};
    /// # let prices = Store::new().unwrap().spawn().unwrap().new_table("prices", Options::new()).unwrap();
    /// prices.insert(("apple", 30)).unwrap();
    /// assert_eq!(prices.take("apple").unwrap(), [("apple", 30).into()]);
    /// assert_eq!(prices.take("apple").unwrap(), []);
    /// ```
    pub fn take(&self, key: impl Into<Term>) -> Result<Vec<Term>, Error> {
        reply::list(self.ask("take", &[key.into()])?)
    }

    /// Deletes the objects of a key.
    ///
    /// ```
    /// # use yoyoash::{Options, Store};
    /// # let prices = Store::new().unwrap().spawn().unwrap().new_table("prices", Options::new()).unwrap();
    /// prices.insert(("apple", 30)).unwrap();
    /// prices.delete("apple").unwrap();
    /// assert!(!prices.member("apple").unwrap());
    /// ```
    pub fn delete(&self, key: impl Into<Term>) -> Result<(), Error> {
        reply::done(self.ask("delete", &[key.into()])?)
    }

    /// Deletes an object, and every object that equals it.
    ///
    /// ```
    /// # use yoyoash::{Options, Store};
    /// # let routes = Store::new().unwrap().spawn().unwrap().new_table("routes", Options::new().bag()).unwrap();
    /// routes.insert_all([("home", 1), ("home", 2)]).unwrap();
    /// routes.delete_object(("home", 1)).unwrap();
    /// assert_eq!(routes.lookup("home").unwrap(), [("home", 2).into()]);
    /// ```
    pub fn delete_object(&self, object: impl Into<Term>) -> Result<(), Error> {
        reply::done(self.ask("delete_object", &[object.into()])?)
    }

    /// Deletes all objects.
    ///
    /// ```
    /// # use yoyoash::{Options, Store};
    /// # let prices = Store::new().unwrap().spawn().unwrap().new_table("prices", Options::new()).unwrap();
    /// prices.insert(("apple", 30)).unwrap();
    /// prices.delete_all_objects().unwrap();
    /// assert_eq!(prices.size().unwrap(), Some(0));
    /// ```
    pub fn delete_all_objects(&self) -> Result<(), Error> {
        reply::done(self.ask("delete_all_objects", &[])?)
    }

    /// Returns all objects (`tab2list`).
    ///
    /// ```
    /// # use yoyoash::{Options, Store};
    /// # let prices = Store::new().unwrap().spawn().unwrap().new_table("prices", Options::new()).unwrap();
    /// prices.insert(("apple", 30)).unwrap();
    /// assert_eq!(prices.tab2list().unwrap(), [("apple", 30).into()]);
    /// ```
    pub fn tab2list(&self) -> Result<Vec<Term>, Error> {
        reply::list(self.ask("tab2list", &[])?)
    }
}
