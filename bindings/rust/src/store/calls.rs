//! Calls from a name and terms, from bytes, and from a text.
use super::Store;
use crate::error::{Error, ErrorKind};
use crate::external::{self, ExternalTermError};
use crate::id::TableId;
use crate::term::Term;
use std::fmt::Write;

/// The memory in bytes that a call's bytes begin with.
const SHORT_CALL: usize = 128;

impl Store {
    /// Makes a call with this name and these arguments, and returns its reply. Both go in Erlang's External Term
    /// Format, so nothing is printed or parsed. An argument may be 126 levels deep.
    ///
    /// ```
    /// use yoyoash::{term, Store};
    ///
    /// let store = Store::new().unwrap();
    /// store.spawn_as(0).unwrap();
    /// store.ask(0, "new", &[term!(:prices), term!([:named_table])]).unwrap();
    /// store.ask(0, "insert", &[term!(:prices), term!({:apple, 30})]).unwrap();
    /// let found = store.ask(0, "lookup", &[term!(:prices), term!(:apple)]).unwrap();
    /// assert_eq!(found.to_string(), "[{apple,30}]");
    /// ```
    pub fn ask(&self, pid: u32, name: &str, arguments: &[Term]) -> Result<Term, Error> {
        let mut call = Vec::with_capacity(SHORT_CALL);
        external::put_call(&mut call, name, arguments).map_err(unsent)?;
        self.reply_to(pid, &call)
    }

    /// Makes a call whose first argument is a table, as `ask` does.
    pub(crate) fn ask_of(&self, pid: u32, name: &str, table: &TableId, others: &[Term]) -> Result<Term, Error> {
        let mut call = Vec::with_capacity(SHORT_CALL);
        external::put_call_on(&mut call, name, table, others).map_err(unsent)?;
        self.reply_to(pid, &call)
    }

    fn reply_to(&self, pid: u32, call: &[u8]) -> Result<Term, Error> {
        let reply = self.call_external(pid, call)?;
        Term::from_external(&reply).map_err(|fault| Error::new(ErrorKind::Unknown, fault.to_string()))
    }

    /// Makes the call of these bytes for a process, and returns the bytes of its reply, both in Erlang's External Term
    /// Format. A call is `{Name,Arguments}`, an atom and a list.
    ///
    /// ```
    /// use yoyoash::{term, Store};
    ///
    /// let store = Store::new().unwrap();
    /// store.spawn_as(0).unwrap();
    /// let call = term!({:whereis, [:prices]}).to_external().unwrap();
    /// assert_eq!(store.call_external(0, &call).unwrap(), term!(:undefined).to_external().unwrap());
    /// ```
    pub fn call_external(&self, pid: u32, call: &[u8]) -> Result<Vec<u8>, Error> {
        self.lock().call_external(pid, call)
    }

    /// Makes a call for a process, and returns its reply. The text is a tuple of the call's name and its arguments. Do
    /// not make the text from data: an argument of `ask` is data, and a text may be another call.
    ///
    /// ```
    /// let store = yoyoash::Store::new().unwrap();
    /// store.spawn_as(0).unwrap();
    /// assert_eq!(store.call(0, "{whereis,prices}").unwrap().to_string(), "undefined");
    /// ```
    pub fn call(&self, pid: u32, text: &str) -> Result<Term, Error> {
        let reply = self.call_text(pid, text)?;
        reply.parse().map_err(|_| Error::new(ErrorKind::Unknown, reply))
    }

    /// Makes a call like `ask`, but by a text. An argument may be 127 levels deep.
    ///
    /// ```
    /// use yoyoash::{term, Store};
    ///
    /// let store = Store::new().unwrap();
    /// store.spawn_as(0).unwrap();
    /// assert_eq!(store.call_with(0, "whereis", &[term!(:prices)]).unwrap(), term!(:undefined));
    /// ```
    pub fn call_with(&self, pid: u32, name: &str, arguments: &[Term]) -> Result<Term, Error> {
        let mut text = String::from("{");
        let _ = write!(text, "{}", Term::Atom(name.to_owned()));
        for argument in arguments {
            let _ = write!(text, ",{argument}");
        }
        text.push('}');
        self.call(pid, &text)
    }

    /// Makes a call for a process, and returns the text of its reply.
    ///
    /// ```
    /// let store = yoyoash::Store::new().unwrap();
    /// store.spawn_as(0).unwrap();
    /// assert_eq!(store.call_text(0, "{whereis,prices}").unwrap(), "undefined");
    /// ```
    pub fn call_text(&self, pid: u32, text: &str) -> Result<String, Error> {
        let reply = self.lock().call(pid, text)?;
        String::from_utf8(reply).map_err(|_| Error::new(ErrorKind::Unknown, "the reply is not a text".to_owned()))
    }
}

/// Returns the error of a call that has no bytes, as the store refuses a call.
fn unsent(fault: ExternalTermError) -> Error {
    Error::new(ErrorKind::Syntax { offset: fault.offset() }, fault.problem().to_owned())
}
