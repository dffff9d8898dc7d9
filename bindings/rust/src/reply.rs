//! What replies hold. A reply of another form is an error.
use crate::error::Error;
use crate::reason::Reason;
use crate::term::Term;

pub(crate) fn list(reply: Term) -> Result<Vec<Term>, Error> {
    match reply.as_list() {
        Some(_) => Ok(reply.into_elements().unwrap_or_default()),
        None => Err(Error::unexpected(&reply)),
    }
}

pub(crate) fn flag(reply: Term) -> Result<bool, Error> {
    reply.as_bool().ok_or_else(|| Error::unexpected(&reply))
}

/// Checks that the reply is `true`.
pub(crate) fn done(reply: Term) -> Result<(), Error> {
    if reply.is_true() {
        Ok(())
    } else {
        Err(Error::unexpected(&reply))
    }
}

pub(crate) fn integer(reply: Term) -> Result<i128, Error> {
    reply.as_int().ok_or_else(|| Error::unexpected(&reply))
}

pub(crate) fn integers(reply: Term) -> Result<Vec<i128>, Error> {
    list(reply)?.into_iter().map(integer).collect()
}

/// Returns a number of objects.
pub(crate) fn count(reply: Term) -> Result<u64, Error> {
    reply.as_int().and_then(|number| number.try_into().ok()).ok_or_else(|| Error::unexpected(&reply))
}

/// Returns nothing at the end of the table.
pub(crate) fn key(reply: Term) -> Option<Term> {
    if reply.as_atom() == Some("$end_of_table") {
        None
    } else {
        Some(reply)
    }
}

/// Returns a key and its objects, or nothing at the end of the table.
pub(crate) fn entry(reply: Term) -> Result<Option<(Term, Vec<Term>)>, Error> {
    let reply = match key(reply) {
        Some(reply) => reply,
        None => return Ok(None),
    };
    match reply.as_tuple() {
        Some([key, Term::List(_)]) => {
            let key = key.clone();
            let objects = reply.into_elements().and_then(|mut both| both.pop()).and_then(Term::into_elements);
            Ok(Some((key, objects.unwrap_or_default())))
        }
        _ => Err(Error::unexpected(&reply)),
    }
}

/// Returns nothing if the call was refused because the key has no objects.
pub(crate) fn unless_missing<T>(reply: Result<T, Error>) -> Result<Option<T>, Error> {
    match reply {
        Ok(value) => Ok(Some(value)),
        Err(error) if error.reason() == Reason::NoKey => Ok(None),
        Err(error) => Err(error),
    }
}
