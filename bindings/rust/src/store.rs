//! A store in this process.
use crate::error::Error;
use crate::id::Pid;
use crate::library::Library;
use crate::process::Process;
use std::collections::hash_map::RandomState;
use std::hash::{BuildHasher, Hasher};
use std::sync::{Arc, Mutex, MutexGuard, PoisonError};

mod calls;

/// What a store may hold. The default is the largest: a limit takes no memory, so it costs nothing until it is used.
///
/// ```
/// use yoyoash::{Limits, Store};
///
/// let store = Store::with_limits(Limits { objects: 1_000_000, ..Limits::default() }).unwrap();
/// # store.spawn().unwrap();
/// ```
#[derive(Clone, Copy, Debug, PartialEq, Eq)]
pub struct Limits {
    /// Processes that the store may ever have.
    pub processes: u32,
    /// Tables that the store may ever have.
    pub tables: u32,
    /// Objects in one table.
    pub objects: u32,
}

impl Default for Limits {
    fn default() -> Limits {
        Limits { processes: u32::MAX, tables: u32::MAX, objects: u32::MAX }
    }
}

/// A store. A clone is the same store, which ends with its last clone, process and table.
///
/// Threads may share a store. One call runs at a time; a call is encoded before the lock is taken, and its reply is
/// decoded after.
///
/// ```
/// use yoyoash::{Options, Store};
///
/// # fn main() -> Result<(), yoyoash::Error> {
/// let store = Store::new()?;
/// let prices = store.spawn()?.new_table("prices", Options::new())?;
/// prices.insert(("apple", 30))?;
/// assert!(prices.member("apple")?);
/// # Ok(())
/// # }
/// ```
#[derive(Clone, Debug)]
pub struct Store {
    library: Arc<Mutex<Library>>,
}

impl Store {
    /// Opens a store with the default limits.
    ///
    /// ```
    /// let store = yoyoash::Store::new().unwrap();
    /// # store.spawn().unwrap();
    /// ```
    pub fn new() -> Result<Store, Error> {
        Store::with_limits(Limits::default())
    }

    /// Opens a store with these limits.
    ///
    /// ```
    /// use yoyoash::{Limits, Reason, Store};
    ///
    /// let store = Store::with_limits(Limits { processes: 1, ..Limits::default() }).unwrap();
    /// store.spawn().unwrap();
    /// assert_eq!(store.spawn().unwrap_err().reason(), Reason::ProcessLimit);
    /// ```
    pub fn with_limits(limits: Limits) -> Result<Store, Error> {
        Store::with_seed(limits, drawn_seed())
    }

    /// Opens a store with these limits, whose keys are hashed with this seed. The other methods draw a seed that nobody
    /// can guess, so that nobody can choose keys with one hash, which would be slow. The seed also decides in which
    /// order a table is traversed. So choose one if two runs must have the same order, and no stranger chooses keys.
    ///
    /// ```
    /// use yoyoash::{Limits, Options, Store};
    ///
    /// let first_key = || {
    ///     let store = Store::with_seed(Limits::default(), 7).unwrap();
    ///     let table = store.spawn().unwrap().new_table("t", Options::new()).unwrap();
    ///     table.insert_all((0..5).map(|key| (key,))).unwrap();
    ///     table.first().unwrap()
    /// };
    /// assert_eq!(first_key(), first_key());
    /// ```
    pub fn with_seed(limits: Limits, seed: u64) -> Result<Store, Error> {
        Ok(Store { library: Arc::new(Mutex::new(Library::open(limits, seed)?)) })
    }

    /// Starts a process: an identity inside the store, which owns tables. Its number is the least that was never used.
    ///
    /// ```
    /// let store = yoyoash::Store::new().unwrap();
    /// let process = store.spawn().unwrap();
    /// assert_eq!(process.pid().to_string(), "<0.0.0>");
    /// ```
    pub fn spawn(&self) -> Result<Process, Error> {
        let number = self.lock().spawn_next()?;
        Ok(self.process(Pid::new(number)))
    }

    /// Starts the process of a number. A number is used once.
    ///
    /// ```
    /// let store = yoyoash::Store::new().unwrap();
    /// assert_eq!(store.spawn_as(7).unwrap().pid().number(), 7);
    /// assert_eq!(store.spawn_as(7).unwrap_err().reason(), yoyoash::Reason::ProcessUsed);
    /// ```
    pub fn spawn_as(&self, pid: u32) -> Result<Process, Error> {
        self.lock().spawn(pid)?;
        Ok(self.process(Pid::new(pid)))
    }

    /// Returns the handle of a process, such as one that an object names. A call of a process that does not exist is
    /// refused.
    ///
    /// ```
    /// let store = yoyoash::Store::new().unwrap();
    /// let pid = store.spawn().unwrap().pid();
    /// assert_eq!(store.process(pid).receive().unwrap(), []);
    /// ```
    pub fn process(&self, pid: Pid) -> Process {
        Process::new(self.clone(), pid)
    }

    /// Ends a process. Each of its tables goes to its heir or is deleted.
    ///
    /// ```
    /// let store = yoyoash::Store::new().unwrap();
    /// store.spawn_as(7).unwrap();
    /// store.exit(7).unwrap();
    /// assert_eq!(store.exit(7).unwrap_err().reason(), yoyoash::Reason::NoProcess);
    /// ```
    pub fn exit(&self, pid: u32) -> Result<(), Error> {
        self.lock().exit(pid)
    }

    /// Waits for the lock. A thread that panics while it holds the lock leaves a whole store.
    fn lock(&self) -> MutexGuard<'_, Library> {
        self.library.lock().unwrap_or_else(PoisonError::into_inner)
    }
}

/// Returns a number that the system's random numbers decide, another each time.
fn drawn_seed() -> u64 {
    RandomState::new().build_hasher().finish()
}
