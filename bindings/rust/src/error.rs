//! Why a call was refused.
use crate::reason::Reason;
use crate::term::Term;
use std::fmt;

/// The kind of an [`Error`]. New kinds may be added.
///
/// ```
/// use yoyoash::{ErrorKind, Store};
///
/// let process = Store::new().unwrap().spawn().unwrap();
/// assert_eq!(process.table("prices").lookup("apple").unwrap_err().kind(), ErrorKind::BadArg);
/// ```
#[derive(Clone, Copy, Debug, PartialEq, Eq, Hash)]
#[non_exhaustive]
pub enum ErrorKind {
    /// The call's name, its arguments or the access right were refused.
    BadArg,
    /// The call would exceed a limit.
    SystemLimit,
    /// The process was never spawned, or has exited.
    NoProcess,
    /// Out of memory.
    NoMemory,
    /// The text or the bytes are not a call. The offset of their first fault is in bytes, from 0.
    Syntax {
        /// The offset of the fault.
        offset: usize,
    },
    /// The call was made, but there was no memory for the text or the bytes of its reply.
    Untold,
    /// The library returned a status that this crate does not know, or a reply that it cannot read.
    Unknown,
}

/// A call that was refused. It changed nothing, unless its kind is [`ErrorKind::Untold`] or [`ErrorKind::Unknown`].
///
/// ```
/// use yoyoash::{Reason, Store};
///
/// let process = Store::new().unwrap().spawn().unwrap();
/// let error = process.table("prices").lookup("apple").unwrap_err();
/// assert_eq!(error.reason(), Reason::NoTable);
/// assert_eq!(error.to_string(), "badarg: argument 1: no such table");
/// ```
#[derive(Clone, Debug, PartialEq, Eq)]
pub struct Error {
    kind: ErrorKind,
    reason: Reason,
    argument: Option<usize>,
    text: String,
}

impl Error {
    pub(crate) fn new(kind: ErrorKind, text: String) -> Error {
        let (reason, argument) = Reason::of_text(&text);
        Error { kind, reason, argument, text }
    }

    /// Returns the error of a reply that is not of the call's form.
    pub(crate) fn unexpected(reply: &Term) -> Error {
        Error::new(ErrorKind::Unknown, format!("the reply is {reply}"))
    }

    /// Returns the kind of refusal.
    ///
    /// ```
    /// # let process = yoyoash::Store::new().unwrap().spawn().unwrap();
    /// let error = process.table("prices").lookup("apple").unwrap_err();
    /// assert_eq!(error.kind(), yoyoash::ErrorKind::BadArg);
    /// ```
    pub fn kind(&self) -> ErrorKind {
        self.kind
    }

    /// Returns the reason: the rule that the call broke.
    ///
    /// ```
    /// # let process = yoyoash::Store::new().unwrap().spawn().unwrap();
    /// let error = process.table("prices").lookup("apple").unwrap_err();
    /// assert_eq!(error.reason(), yoyoash::Reason::NoTable);
    /// ```
    pub fn reason(&self) -> Reason {
        self.reason
    }

    /// Returns the number of the argument that the reason is about. The table is argument 1.
    ///
    /// ```
    /// # let process = yoyoash::Store::new().unwrap().spawn().unwrap();
    /// let error = process.table("prices").lookup("apple").unwrap_err();
    /// assert_eq!(error.argument(), Some(1));
    /// ```
    pub fn argument(&self) -> Option<usize> {
        self.argument
    }

    /// Returns the reason in words, with the number of its argument. It may be empty.
    ///
    /// ```
    /// # let process = yoyoash::Store::new().unwrap().spawn().unwrap();
    /// let error = process.table("prices").lookup("apple").unwrap_err();
    /// assert_eq!(error.text(), "argument 1: no such table");
    /// ```
    pub fn text(&self) -> &str {
        &self.text
    }

    /// Returns what to do if a limit of the store was reached.
    ///
    /// ```
    /// use yoyoash::{Limits, Store};
    ///
    /// let store = Store::with_limits(Limits { processes: 1, ..Limits::default() }).unwrap();
    /// store.spawn().unwrap();
    /// let remedy = store.spawn().unwrap_err().remedy();
    /// assert_eq!(remedy, Some("open the store with a larger Limits::processes"));
    /// ```
    pub fn remedy(&self) -> Option<&'static str> {
        match self.reason {
            Reason::ObjectLimit => Some("open the store with a larger Limits::objects"),
            Reason::TableLimit => Some("open the store with a larger Limits::tables"),
            Reason::ProcessLimit => Some("open the store with a larger Limits::processes"),
            _ => None,
        }
    }
}

impl fmt::Display for ErrorKind {
    fn fmt(&self, f: &mut fmt::Formatter<'_>) -> fmt::Result {
        match self {
            ErrorKind::BadArg => f.write_str("badarg"),
            ErrorKind::SystemLimit => f.write_str("system_limit"),
            ErrorKind::NoProcess => f.write_str("no process"),
            ErrorKind::NoMemory => f.write_str("out of memory"),
            ErrorKind::Syntax { offset } => write!(f, "syntax error at byte {offset}"),
            ErrorKind::Untold => f.write_str("no memory for the reply"),
            ErrorKind::Unknown => f.write_str("unknown status"),
        }
    }
}

impl fmt::Display for Error {
    fn fmt(&self, f: &mut fmt::Formatter<'_>) -> fmt::Result {
        self.kind.fmt(f)?;
        if !self.text.is_empty() && self.kind != ErrorKind::NoMemory {
            write!(f, ": {}", self.text)?;
        }
        match self.remedy() {
            Some(remedy) => write!(f, "; {remedy}"),
            None => Ok(()),
        }
    }
}

impl std::error::Error for Error {}
