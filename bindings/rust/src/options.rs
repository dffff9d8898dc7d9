//! The options of tables.
use crate::atom::Atom;
use crate::id::Pid;
use crate::term::Term;

/// The options of a new table. Without any, it is a set that all processes read, that its owner writes, whose objects
/// have their key first, and that calls do not name.
///
/// ```
/// use yoyoash::{Options, Store};
///
/// # fn main() -> Result<(), yoyoash::Error> {
/// let process = Store::new()?.spawn()?;
/// let routes = process.new_table("routes", Options::new().bag().public().named())?;
/// routes.insert_all([("home", 1), ("home", 2)])?;
/// assert_eq!(routes.lookup("home")?.len(), 2);
/// # Ok(())
/// # }
/// ```
#[derive(Clone, Debug, Default, PartialEq, Eq)]
pub struct Options {
    terms: Vec<Term>,
}

impl Options {
    /// Returns the default options.
    ///
    /// ```
    /// assert_eq!(yoyoash::Options::new(), yoyoash::Options::default());
    /// ```
    pub fn new() -> Options {
        Options::default()
    }

    fn with(mut self, option: impl Into<Term>) -> Options {
        self.terms.push(option.into());
        self
    }

    pub(crate) fn into_term(self) -> Term {
        Term::List(self.terms)
    }

    /// Lets calls of all processes use the name of the table. It must be free.
    ///
    /// ```
    /// use yoyoash::{Options, Reason, Store};
    ///
    /// let process = Store::new().unwrap().spawn().unwrap();
    /// process.new_table("prices", Options::new().named()).unwrap();
    /// let error = process.new_table("prices", Options::new().named()).unwrap_err();
    /// assert_eq!(error.reason(), Reason::NameUsed);
    /// ```
    pub fn named(self) -> Options {
        self.with(Atom::new("named_table"))
    }

    /// Lets a key have several objects, which differ.
    ///
    /// ```
    /// # use yoyoash::{Options, Store};
    /// # let process = Store::new().unwrap().spawn().unwrap();
    /// let routes = process.new_table("routes", Options::new().bag()).unwrap();
    /// routes.insert_all([("home", 1), ("home", 2), ("home", 1)]).unwrap();
    /// assert_eq!(routes.lookup("home").unwrap().len(), 2);
    /// ```
    pub fn bag(self) -> Options {
        self.with(Atom::new("bag"))
    }

    /// Lets a key have several objects, also equal ones.
    ///
    /// ```
    /// # use yoyoash::{Options, Store};
    /// # let process = Store::new().unwrap().spawn().unwrap();
    /// let log = process.new_table("log", Options::new().duplicate_bag()).unwrap();
    /// log.insert_all([("home", 1), ("home", 2), ("home", 1)]).unwrap();
    /// assert_eq!(log.lookup("home").unwrap().len(), 3);
    /// ```
    pub fn duplicate_bag(self) -> Options {
        self.with(Atom::new("duplicate_bag"))
    }

    /// Lets all processes read and write.
    ///
    /// ```
    /// # use yoyoash::{Options, Store};
    /// # let store = Store::new().unwrap();
    /// let prices = store.spawn().unwrap().new_table("prices", Options::new().public()).unwrap();
    /// let other = store.spawn().unwrap();
    /// assert!(other.table(&prices).insert(("apple", 30)).is_ok());
    /// ```
    pub fn public(self) -> Options {
        self.with(Atom::new("public"))
    }

    /// Lets only the owner read and write.
    ///
    /// ```
    /// # use yoyoash::{Options, Reason, Store};
    /// # let store = Store::new().unwrap();
    /// let prices = store.spawn().unwrap().new_table("prices", Options::new().private()).unwrap();
    /// let other = store.spawn().unwrap();
    /// assert_eq!(other.table(&prices).lookup("apple").unwrap_err().reason(), Reason::NotReadable);
    /// ```
    pub fn private(self) -> Options {
        self.with(Atom::new("private"))
    }

    /// Sets the position of the key in objects. The first position is 1, the default.
    ///
    /// ```
    /// # use yoyoash::{Options, Store};
    /// # let process = Store::new().unwrap().spawn().unwrap();
    /// let prices = process.new_table("prices", Options::new().key_position(2)).unwrap();
    /// prices.insert((30, "apple")).unwrap();
    /// assert!(prices.member("apple").unwrap());
    /// ```
    pub fn key_position(self, position: usize) -> Options {
        self.with((Atom::new("keypos"), position))
    }

    /// Sets the heir, which gets the table and a [message](crate::Process::receive) with this gift when the owner
    /// exits.
    ///
    /// ```
    /// # use yoyoash::{Options, Store};
    /// # let store = Store::new().unwrap();
    /// # let (owner, heir) = (store.spawn().unwrap(), store.spawn().unwrap());
    /// owner.new_table("prices", Options::new().heir(&heir, "yours")).unwrap();
    /// owner.exit().unwrap();
    /// assert_eq!(heir.receive().unwrap().len(), 1);
    /// ```
    pub fn heir(self, heir: impl Into<Pid>, gift: impl Into<Term>) -> Options {
        self.with((Atom::new("heir"), heir.into(), gift.into()))
    }
}
