//! Tables as a process sees them. The files in `table/` have the calls.
use crate::error::Error;
use crate::id::{Pid, TableId};
use crate::process::Process;
use crate::reply;
use crate::term::Term;
use std::fmt;

mod counters;
mod objects;
mod searches;
mod traversals;

pub use counters::Update;

/// A table as a process sees it. Its methods are calls of that process.
///
/// A clone is the same table. A table is deleted by [`delete_table`](Table::delete_table), or when its owner exits and
/// there is no heir; it is not deleted when a handle is dropped.
///
/// Keys and objects are anything that converts into a [`Term`]. An object is a tuple, and its first element is the key,
/// unless an option says otherwise.
///
/// ```
/// use yoyoash::{Options, Store};
///
/// # fn main() -> Result<(), yoyoash::Error> {
/// let prices = Store::new()?.spawn()?.new_table("prices", Options::new())?;
/// prices.insert(("apple", 30))?;
/// assert_eq!(prices.lookup_element("apple", 2)?, Some(30.into()));
/// assert_eq!(prices.lookup_element("pear", 2)?, None);
/// # Ok(())
/// # }
/// ```
#[derive(Clone)]
pub struct Table {
    process: Process,
    id: TableId,
}

impl Table {
    pub(crate) fn new(process: Process, id: TableId) -> Table {
        Table { process, id }
    }

    pub(crate) fn ask(&self, name: &str, others: &[Term]) -> Result<Term, Error> {
        self.process.store().ask_of(self.process.pid().number(), name, &self.id, others)
    }

    /// Returns what names the table in calls: its name, if it is a named table, else its number.
    ///
    /// ```
    /// # use yoyoash::{Options, Store};
    /// # let process = Store::new().unwrap().spawn().unwrap();
    /// assert_eq!(process.new_table("t", Options::new().named()).unwrap().id().to_string(), "t");
    /// assert_eq!(process.new_table("t", Options::new()).unwrap().id().to_string(), "#Tid<1>");
    /// ```
    pub fn id(&self) -> &TableId {
        &self.id
    }

    /// Returns the process that makes the calls.
    ///
    /// ```
    /// # use yoyoash::{Options, Store};
    /// # let process = Store::new().unwrap().spawn().unwrap();
    /// let table = process.new_table("t", Options::new()).unwrap();
    /// assert_eq!(table.process().pid(), process.pid());
    /// ```
    pub fn process(&self) -> &Process {
        &self.process
    }

    /// Returns an item of what is known of the table, or nothing if the table does not exist.
    ///
    /// ```
    /// # use yoyoash::{Item, Options, Store};
    /// # let process = Store::new().unwrap().spawn().unwrap();
    /// let table = process.new_table("t", Options::new().bag()).unwrap();
    /// assert_eq!(table.info(Item::Type).unwrap().unwrap().as_atom(), Some("bag"));
    /// assert_eq!(process.table("other").info(Item::Type).unwrap(), None);
    /// ```
    pub fn info(&self, item: Item) -> Result<Option<Term>, Error> {
        Ok(self.ask("info", &[Term::Atom(item.name().to_owned())])?.into_option())
    }

    /// Returns the number of objects, or nothing if the table does not exist.
    ///
    /// ```
    /// # use yoyoash::{Options, Store};
    /// # let table = Store::new().unwrap().spawn().unwrap().new_table("t", Options::new()).unwrap();
    /// table.insert_all([("apple", 30), ("pear", 40)]).unwrap();
    /// assert_eq!(table.size().unwrap(), Some(2));
    /// ```
    pub fn size(&self) -> Result<Option<u64>, Error> {
        self.info(Item::Size)?.map(reply::count).transpose()
    }

    /// Deletes the table, with its name and its fixes (`delete` of `ets` with one argument).
    ///
    /// ```
    /// # use yoyoash::{Options, Store};
    /// # let table = Store::new().unwrap().spawn().unwrap().new_table("t", Options::new()).unwrap();
    /// table.delete_table().unwrap();
    /// assert_eq!(table.size().unwrap(), None);
    /// ```
    pub fn delete_table(&self) -> Result<(), Error> {
        reply::done(self.ask("delete", &[])?)
    }

    /// Makes another process the owner, and sends it a [message](Process::receive) with this gift.
    ///
    /// ```
    /// # use yoyoash::{Options, Store};
    /// # let store = Store::new().unwrap();
    /// # let (owner, other) = (store.spawn().unwrap(), store.spawn().unwrap());
    /// let prices = owner.new_table("prices", Options::new().private()).unwrap();
    /// prices.give_away(&other, "yours").unwrap();
    /// assert!(prices.insert(("apple", 30)).is_err());
    /// assert!(other.table(&prices).insert(("apple", 30)).is_ok());
    /// ```
    pub fn give_away(&self, owner: impl Into<Pid>, gift: impl Into<Term>) -> Result<(), Error> {
        reply::done(self.ask("give_away", &[owner.into().into(), gift.into()])?)
    }

    /// Sets the heir, which gets the table and a [message](Process::receive) with this gift when the owner exits
    /// (`setopts`).
    ///
    /// ```
    /// # use yoyoash::{Options, Store};
    /// # let store = Store::new().unwrap();
    /// # let (owner, heir) = (store.spawn().unwrap(), store.spawn().unwrap());
    /// owner.new_table("prices", Options::new()).unwrap().set_heir(&heir, "yours").unwrap();
    /// owner.exit().unwrap();
    /// assert_eq!(heir.receive().unwrap().len(), 1);
    /// ```
    pub fn set_heir(&self, heir: impl Into<Pid>, gift: impl Into<Term>) -> Result<(), Error> {
        self.set_option((Term::Atom("heir".to_owned()), heir.into(), gift.into()).into())
    }

    /// Sets that the table has no heir (`setopts`).
    ///
    /// ```
    /// # use yoyoash::{Item, Options, Store};
    /// # let store = Store::new().unwrap();
    /// # let (owner, heir) = (store.spawn().unwrap(), store.spawn().unwrap());
    /// let prices = owner.new_table("prices", Options::new().heir(&heir, "yours")).unwrap();
    /// prices.clear_heir().unwrap();
    /// assert_eq!(prices.info(Item::Heir).unwrap().unwrap().as_atom(), Some("none"));
    /// ```
    pub fn clear_heir(&self) -> Result<(), Error> {
        self.set_option((Term::Atom("heir".to_owned()), Term::Atom("none".to_owned())).into())
    }

    fn set_option(&self, option: Term) -> Result<(), Error> {
        reply::done(self.ask("setopts", &[option])?)
    }
}

impl fmt::Debug for Table {
    fn fmt(&self, f: &mut fmt::Formatter<'_>) -> fmt::Result {
        write!(f, "Table({} as {})", self.id, self.process.pid())
    }
}

/// What [`Table::info`] returns of a table.
///
/// ```
/// # use yoyoash::{Item, Options, Store};
/// # let process = Store::new().unwrap().spawn().unwrap();
/// let table = process.new_table("t", Options::new().private()).unwrap();
/// assert_eq!(table.info(Item::Owner).unwrap().unwrap().as_pid(), Some(process.pid()));
/// assert_eq!(table.info(Item::Protection).unwrap().unwrap().as_atom(), Some("private"));
/// ```
#[derive(Clone, Copy, Debug, PartialEq, Eq, Hash)]
#[non_exhaustive]
pub enum Item {
    /// The identifier of the table.
    Id,
    /// The name that the table got when it was made.
    Name,
    /// Whether calls can use the name.
    NamedTable,
    /// The atom `set`, `bag` or `duplicate_bag`.
    Type,
    /// The position of the key in objects.
    KeyPosition,
    /// The atom `public`, `protected` or `private`.
    Protection,
    /// The owner.
    Owner,
    /// The heir, or the atom `none`.
    Heir,
    /// The number of objects.
    Size,
    /// Whether a process fixes the table.
    Fixed,
}

impl Item {
    fn name(self) -> &'static str {
        match self {
            Item::Id => "id",
            Item::Name => "name",
            Item::NamedTable => "named_table",
            Item::Type => "type",
            Item::KeyPosition => "keypos",
            Item::Protection => "protection",
            Item::Owner => "owner",
            Item::Heir => "heir",
            Item::Size => "size",
            Item::Fixed => "fixed",
        }
    }
}
