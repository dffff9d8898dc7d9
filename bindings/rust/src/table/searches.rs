//! Calls that try objects of a table by a pattern or a match specification.
use super::Table;
use crate::error::Error;
use crate::reply;
use crate::spec::Spec;
use crate::term::Term;

impl Table {
    /// Returns, for each object that matches a pattern, the values of the pattern's variables, in the order of their
    /// numbers (`match` of `ets`).
    ///
    /// ```
    /// # use yoyoash::{Options, Store};
    /// use yoyoash::spec::{any, var};
    ///
    /// # let prices = Store::new().unwrap().spawn().unwrap().new_table("prices", Options::new()).unwrap();
    /// prices.insert(("apple", 30, "red")).unwrap();
    /// let values = prices.match_variables((var(1), var(2), any())).unwrap();
    /// assert_eq!(values, [["apple".into(), 30.into()]]);
    /// ```
    #[doc(alias = "match")]
    pub fn match_variables(&self, pattern: impl Into<Term>) -> Result<Vec<Vec<Term>>, Error> {
        reply::list(self.ask("match", &[pattern.into()])?)?.into_iter().map(reply::list).collect()
    }

    /// Returns the objects that match a pattern.
    ///
    /// ```
    /// # use yoyoash::{Options, Store};
    /// use yoyoash::spec::any;
    ///
    /// # let prices = Store::new().unwrap().spawn().unwrap().new_table("prices", Options::new()).unwrap();
    /// prices.insert_all([("apple", 30), ("pear", 40)]).unwrap();
    /// assert_eq!(prices.match_object((any(), 40)).unwrap(), [("pear", 40).into()]);
    /// ```
    pub fn match_object(&self, pattern: impl Into<Term>) -> Result<Vec<Term>, Error> {
        reply::list(self.ask("match_object", &[pattern.into()])?)
    }

    /// Deletes the objects that match a pattern.
    ///
    /// ```
    /// # use yoyoash::{Options, Store};
    /// use yoyoash::spec::any;
    ///
    /// # let prices = Store::new().unwrap().spawn().unwrap().new_table("prices", Options::new()).unwrap();
    /// prices.insert_all([("apple", 30), ("pear", 40)]).unwrap();
    /// prices.match_delete((any(), 40)).unwrap();
    /// assert_eq!(prices.tab2list().unwrap(), [("apple", 30).into()]);
    /// ```
    pub fn match_delete(&self, pattern: impl Into<Term>) -> Result<(), Error> {
        reply::done(self.ask("match_delete", &[pattern.into()])?)
    }

    /// Returns the results of a match specification. The result of a [clause](crate::spec::Clause) without
    /// [`returns`](crate::spec::Clause::returns) is the object.
    ///
    /// ```
    /// # use yoyoash::{Options, Store};
    /// use yoyoash::spec::{var, Clause};
    ///
    /// # let prices = Store::new().unwrap().spawn().unwrap().new_table("prices", Options::new()).unwrap();
    /// prices.insert_all([("apple", 30), ("pear", 40)]).unwrap();
    /// let dear = Clause::new((var(1), var(2))).when(var(2).gt(35));
    /// assert_eq!(prices.select(dear.clone()).unwrap(), [("pear", 40).into()]);
    /// assert_eq!(prices.select(dear.returns(var(1))).unwrap(), ["pear".into()]);
    /// ```
    pub fn select(&self, spec: impl Into<Spec>) -> Result<Vec<Term>, Error> {
        reply::list(self.ask("select", &[spec.into().returning_objects()])?)
    }

    /// Counts the objects that a match specification selects: those whose result is `true`. The result of a clause
    /// without `returns` is `true`.
    ///
    /// ```
    /// # use yoyoash::{Options, Store};
    /// use yoyoash::spec::{any, var, Clause};
    ///
    /// # let prices = Store::new().unwrap().spawn().unwrap().new_table("prices", Options::new()).unwrap();
    /// prices.insert_all([("apple", 30), ("pear", 40)]).unwrap();
    /// assert_eq!(prices.select_count(Clause::new((any(), var(1))).when(var(1).gt(35))).unwrap(), 1);
    /// ```
    pub fn select_count(&self, spec: impl Into<Spec>) -> Result<u64, Error> {
        reply::count(self.ask("select_count", &[spec.into().returning_true()])?)
    }

    /// Deletes the objects that a match specification selects, and returns their number. They are those of
    /// `select_count`.
    ///
    /// ```
    /// # use yoyoash::{Options, Store};
    /// use yoyoash::spec::{any, var, Clause};
    ///
    /// # let prices = Store::new().unwrap().spawn().unwrap().new_table("prices", Options::new()).unwrap();
    /// prices.insert_all([("apple", 30), ("pear", 40)]).unwrap();
    /// assert_eq!(prices.select_delete(Clause::new((any(), var(1))).when(var(1).gt(35))).unwrap(), 1);
    /// assert!(!prices.member("pear").unwrap());
    /// ```
    pub fn select_delete(&self, spec: impl Into<Spec>) -> Result<u64, Error> {
        reply::count(self.ask("select_delete", &[spec.into().returning_true()])?)
    }
}
