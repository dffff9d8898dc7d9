//! Yoyoash for Rust: an in-memory store of Erlang terms in your process, with the semantics of a subset of Erlang's
//! `ets`.
//!
//! The store itself is proved correct; this crate is a tested layer over its C interface.
//!
//! A [`Store`] has [processes](Process), identities that own [tables](Table). A table has objects: tuples, of which an
//! element is the key.
//!
//! ```
//! use yoyoash::{Options, Store};
//!
//! # fn main() -> Result<(), Box<dyn std::error::Error>> {
//! let process = Store::new()?.spawn()?;
//! let prices = process.new_table("prices", Options::new())?;
//! prices.insert(("apple", 30))?;
//! prices.insert_all([("pear", 40), ("plum", 20)])?;
//!
//! let price = prices.lookup_element("apple", 2)?;
//! assert_eq!(price.map(i64::try_from).transpose()?, Some(30));
//! assert_eq!(prices.update_counter("apple", 5)?, Some(35));
//! # Ok(())
//! # }
//! ```
//!
//! A refused call is an [`Error`] with its kind and its [`Reason`]. It changes nothing:
//!
//! ```
//! # let process = yoyoash::Store::new().unwrap().spawn().unwrap();
//! let error = process.table("shops").lookup("apple").unwrap_err();
//! assert_eq!(error.reason(), yoyoash::Reason::NoTable);
//! assert_eq!(error.to_string(), "badarg: argument 1: no such table");
//! ```
//!
//! Searches take patterns and match specifications, which the module [`spec`] makes. Below the methods of [`Table`] is
//! [`Store::ask`], which makes any call from its name and terms.
#![warn(missing_docs)]

mod atom;
mod decode;
mod element;
mod error;
mod external;
mod ffi;
mod fixed;
mod from;
mod id;
mod library;
mod macros;
mod options;
mod parse;
mod parts;
mod process;
mod reason;
mod reply;
pub mod spec;
mod store;
mod table;
mod term;
mod try_from;
mod walk;

pub use atom::Atom;
pub use element::Element;
pub use error::{Error, ErrorKind};
pub use external::ExternalTermError;
pub use fixed::{Fixed, Keys, Objects};
pub use id::{Pid, TableId};
pub use options::Options;
pub use parse::ParseTermError;
pub use process::{Process, Transfer};
pub use reason::Reason;
pub use store::{Limits, Store};
pub use table::{Item, Table, Update};
pub use term::Term;
pub use try_from::TryFromTermError;
