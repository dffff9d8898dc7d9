//! The processes of a store.
use crate::atom::Atom;
use crate::error::Error;
use crate::id::{Pid, TableId};
use crate::options::Options;
use crate::reply;
use crate::store::Store;
use crate::table::Table;
use crate::term::Term;

/// A process of a store: an identity that owns tables. It is not a process of the operating system, and not a thread.
///
/// A clone is the same process. A process ends by [`exit`](Process::exit), and not when its handle is dropped.
///
/// ```
/// use yoyoash::{Options, Store};
///
/// # fn main() -> Result<(), yoyoash::Error> {
/// let process = Store::new()?.spawn()?;
/// let prices = process.new_table("prices", Options::new())?;
/// prices.insert(("apple", 30))?;
/// # Ok(())
/// # }
/// ```
#[derive(Clone, Debug)]
pub struct Process {
    store: Store,
    pid: Pid,
}

impl Process {
    pub(crate) fn new(store: Store, pid: Pid) -> Process {
        Process { store, pid }
    }

    /// Returns the identifier of the process.
    ///
    /// ```
    /// let process = yoyoash::Store::new().unwrap().spawn().unwrap();
    /// assert_eq!(process.pid().number(), 0);
    /// ```
    pub fn pid(&self) -> Pid {
        self.pid
    }

    /// Returns the store of the process.
    ///
    /// ```
    /// let process = yoyoash::Store::new().unwrap().spawn().unwrap();
    /// let other = process.store().spawn().unwrap();
    /// assert_ne!(other.pid(), process.pid());
    /// ```
    pub fn store(&self) -> &Store {
        &self.store
    }

    /// Makes a table, which this process owns (`new` of `ets`).
    ///
    /// ```
    /// use yoyoash::{Options, Store};
    ///
    /// let process = Store::new().unwrap().spawn().unwrap();
    /// let prices = process.new_table("prices", Options::new().named().public()).unwrap();
    /// assert_eq!(prices.id().to_string(), "prices");
    /// ```
    pub fn new_table(&self, name: impl Into<Atom>, options: Options) -> Result<Table, Error> {
        let reply = self.ask("new", &[name.into().into(), options.into_term()])?;
        let id = reply.as_table().ok_or_else(|| Error::unexpected(&reply))?;
        Ok(self.table(id))
    }

    /// Returns this process's handle of a table, by its name or its identifier. A call on a table that does not exist
    /// is refused.
    ///
    /// ```
    /// use yoyoash::{Options, Store};
    ///
    /// let store = Store::new().unwrap();
    /// let owner = store.spawn().unwrap();
    /// let prices = owner.new_table("prices", Options::new()).unwrap();
    /// prices.insert(("apple", 30)).unwrap();
    ///
    /// let reader = store.spawn().unwrap();
    /// assert!(reader.table(&prices).member("apple").unwrap());
    /// assert!(reader.table("prices").member("apple").is_err());    // not a named table
    /// ```
    pub fn table(&self, id: impl Into<TableId>) -> Table {
        Table::new(self.clone(), id.into())
    }

    /// Returns the identifier of the table with a name, if there is one.
    ///
    /// ```
    /// use yoyoash::{Options, Store, TableId};
    ///
    /// let process = Store::new().unwrap().spawn().unwrap();
    /// assert_eq!(process.whereis("prices").unwrap(), None);
    /// process.new_table("prices", Options::new().named()).unwrap();
    /// assert_eq!(process.whereis("prices").unwrap(), Some(TableId::Number(0)));
    /// ```
    pub fn whereis(&self, name: impl Into<Atom>) -> Result<Option<TableId>, Error> {
        let reply = self.ask("whereis", &[name.into().into()])?;
        Ok(reply.into_option().and_then(|id| id.as_table()))
    }

    /// Returns the messages that the process got since it asked last, oldest first. Each says that it now owns a table.
    ///
    /// ```
    /// use yoyoash::{Options, Store};
    ///
    /// let store = Store::new().unwrap();
    /// let (owner, heir) = (store.spawn().unwrap(), store.spawn().unwrap());
    /// owner.new_table("prices", Options::new().heir(&heir, "yours")).unwrap();
    /// owner.exit().unwrap();
    ///
    /// let transfers = heir.receive().unwrap();
    /// assert_eq!(transfers[0].gift.as_str(), Some("yours"));
    /// assert!(!heir.table(&transfers[0].table).member("apple").unwrap());
    /// ```
    pub fn receive(&self) -> Result<Vec<Transfer>, Error> {
        reply::list(self.ask("receive", &[])?)?.into_iter().map(Transfer::of_message).collect()
    }

    /// Makes a call with this name and these arguments, as [`Store::ask`] does.
    ///
    /// ```
    /// use yoyoash::{term, Store};
    ///
    /// let process = Store::new().unwrap().spawn().unwrap();
    /// assert_eq!(process.ask("whereis", &[term!(:prices)]).unwrap(), term!(:undefined));
    /// ```
    pub fn ask(&self, name: &str, arguments: &[Term]) -> Result<Term, Error> {
        self.store.ask(self.pid.number(), name, arguments)
    }

    /// Ends the process. Each of its tables goes to its heir, or is deleted.
    ///
    /// ```
    /// use yoyoash::{ErrorKind, Store};
    ///
    /// let process = Store::new().unwrap().spawn().unwrap();
    /// let table = process.table("prices");
    /// process.exit().unwrap();
    /// assert_eq!(table.first().unwrap_err().kind(), ErrorKind::NoProcess);
    /// ```
    pub fn exit(self) -> Result<(), Error> {
        self.store.exit(self.pid.number())
    }
}

/// A message: a table has a new owner, the process that got the message.
///
/// ```
/// use yoyoash::{Options, Store, Transfer};
///
/// let store = Store::new().unwrap();
/// let (owner, other) = (store.spawn().unwrap(), store.spawn().unwrap());
/// owner.new_table("prices", Options::new().named()).unwrap().give_away(&other, "yours").unwrap();
/// let Transfer { table, from, gift, .. } = &other.receive().unwrap()[0];
/// assert_eq!(table.to_string(), "prices");
/// assert_eq!((*from, gift.as_str()), (owner.pid(), Some("yours")));
/// ```
#[derive(Clone, Debug, PartialEq, Eq)]
#[non_exhaustive]
pub struct Transfer {
    /// The table.
    pub table: TableId,
    /// The former owner.
    pub from: Pid,
    /// What the former owner gave with it: of an heir, the data of the option.
    pub gift: Term,
}

impl Transfer {
    /// Reads `{'ETS-TRANSFER',Table,From,Gift}`.
    fn of_message(message: Term) -> Result<Transfer, Error> {
        match message.as_tuple() {
            Some([_, table, from, gift]) => match (table.as_table(), from.as_pid()) {
                (Some(table), Some(from)) => Ok(Transfer { table, from, gift: gift.clone() }),
                _ => Err(Error::unexpected(&message)),
            },
            _ => Err(Error::unexpected(&message)),
        }
    }
}
