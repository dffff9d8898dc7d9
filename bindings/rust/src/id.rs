//! The identifiers of processes and tables.
use crate::atom::Atom;
use crate::process::Process;
use crate::table::Table;
use crate::term::Term;
use std::fmt;

/// The identifier of a process of the store. It is a value, which objects can contain.
///
/// ```
/// use yoyoash::{Pid, Term};
///
/// let pid = Pid::new(7);
/// assert_eq!((pid.number(), pid.to_string()), (7, "<0.7.0>".to_owned()));
/// assert_eq!(Pid::try_from(Term::from(pid)), Ok(pid));
/// ```
#[derive(Clone, Copy, Debug, PartialEq, Eq, PartialOrd, Ord, Hash)]
pub struct Pid(u32);

impl Pid {
    /// Returns the identifier with this number.
    ///
    /// ```
    /// assert_eq!(yoyoash::Pid::new(7).number(), 7);
    /// ```
    pub fn new(number: u32) -> Pid {
        Pid(number)
    }

    /// Returns the number of the process.
    ///
    /// ```
    /// let store = yoyoash::Store::new().unwrap();
    /// assert_eq!(store.spawn().unwrap().pid().number(), 0);
    /// assert_eq!(store.spawn().unwrap().pid().number(), 1);
    /// ```
    pub fn number(self) -> u32 {
        self.0
    }
}

impl fmt::Display for Pid {
    fn fmt(&self, f: &mut fmt::Formatter<'_>) -> fmt::Result {
        write!(f, "<0.{}.0>", self.0)
    }
}

impl From<&Process> for Pid {
    fn from(process: &Process) -> Pid {
        process.pid()
    }
}

impl From<Pid> for Term {
    fn from(pid: Pid) -> Term {
        Term::Pid(pid.0)
    }
}

/// What names a table in a call: the name of a named table, or the number of another one.
///
/// ```
/// use yoyoash::{Options, Store, TableId};
///
/// # fn main() -> Result<(), yoyoash::Error> {
/// let process = Store::new()?.spawn()?;
/// let prices = process.new_table("prices", Options::new().named())?;
/// assert_eq!(*prices.id(), TableId::from("prices"));
/// let other = process.new_table("prices", Options::new())?;
/// assert_eq!(*other.id(), TableId::Number(1));
/// # Ok(())
/// # }
/// ```
#[derive(Clone, Debug, PartialEq, Eq, Hash)]
pub enum TableId {
    /// The name of a named table.
    Name(Atom),
    /// The number of a table. Numbers count up from 0, and none is used again.
    Number(u32),
}

impl fmt::Display for TableId {
    fn fmt(&self, f: &mut fmt::Formatter<'_>) -> fmt::Result {
        match self {
            TableId::Name(name) => name.fmt(f),
            TableId::Number(number) => write!(f, "#Tid<{number}>"),
        }
    }
}

impl From<&str> for TableId {
    fn from(name: &str) -> TableId {
        TableId::Name(Atom::new(name))
    }
}

impl From<Atom> for TableId {
    fn from(name: Atom) -> TableId {
        TableId::Name(name)
    }
}

impl From<&TableId> for TableId {
    fn from(id: &TableId) -> TableId {
        id.clone()
    }
}

impl From<&Table> for TableId {
    fn from(table: &Table) -> TableId {
        table.id().clone()
    }
}

impl From<TableId> for Term {
    fn from(id: TableId) -> Term {
        match id {
            TableId::Name(name) => name.into(),
            TableId::Number(number) => Term::Tid(number),
        }
    }
}

impl From<&TableId> for Term {
    fn from(id: &TableId) -> Term {
        id.clone().into()
    }
}
