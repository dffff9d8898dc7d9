//! Terms in Erlang's External Term Format, as `term_to_binary` writes them.
use crate::id::TableId;
use crate::term::Term;
use crate::walk::{Visit, Walk};
use std::fmt;

/// The first byte, the version of the format.
pub(crate) const VERSION: u8 = 131;
/// The node of the store's pids and table identifiers.
pub(crate) const NODE: &[u8] = b"nonode@nohost";
/// The empty list, which also ends a list.
const LIST_END: u8 = 106;
/// The most characters of an atom.
pub(crate) const MAX_ATOM: usize = 255;

/// Bytes that are not a term of the store, or a term without bytes. It says what is wrong and where.
///
/// ```
/// let error = yoyoash::Term::from_external(b"\x83F").unwrap_err();
/// assert_eq!(error.to_string(), "not a term: unsupported tag at offset 1");
/// ```
#[derive(Clone, Copy, Debug, PartialEq, Eq)]
pub struct ExternalTermError {
    problem: &'static str,
    offset: usize,
}

impl ExternalTermError {
    pub(crate) fn new(problem: &'static str, offset: usize) -> ExternalTermError {
        ExternalTermError { problem, offset }
    }

    /// Returns what is wrong.
    ///
    /// ```
    /// assert_eq!(yoyoash::Term::from_external(b"\x83F").unwrap_err().problem(), "unsupported tag");
    /// ```
    pub fn problem(&self) -> &'static str {
        self.problem
    }

    /// Returns the offset of the fault in bytes, from 0.
    ///
    /// ```
    /// assert_eq!(yoyoash::Term::from_external(b"\x83F").unwrap_err().offset(), 1);
    /// ```
    pub fn offset(&self) -> usize {
        self.offset
    }
}

impl fmt::Display for ExternalTermError {
    fn fmt(&self, f: &mut fmt::Formatter<'_>) -> fmt::Result {
        write!(f, "not a term: {} at offset {}", self.problem, self.offset)
    }
}

impl std::error::Error for ExternalTermError {}

impl Term {
    /// Returns the bytes that Erlang's `term_to_binary` writes for this term. Refuses an atom that the store cannot
    /// have, and 2^32 or more elements or bytes.
    ///
    /// ```
    /// use yoyoash::term;
    ///
    /// assert_eq!(term!({:apple, 30}).to_external().unwrap(), b"\x83h\x02w\x05applea\x1e");
    /// ```
    pub fn to_external(&self) -> Result<Vec<u8>, ExternalTermError> {
        let mut bytes = vec![VERSION];
        put_terms(&mut bytes, Walk::of(self))?;
        Ok(bytes)
    }
}

/// Appends the bytes of a call, `{Name,Arguments}`.
pub(crate) fn put_call(bytes: &mut Vec<u8>, name: &str, arguments: &[Term]) -> Result<(), ExternalTermError> {
    bytes.extend_from_slice(&[VERSION, 104, 2]);
    put_atom(bytes, name)?;
    if begin_list(bytes, arguments)? {
        put_terms(bytes, Walk::over(arguments))?;
        bytes.push(LIST_END);
    }
    Ok(())
}

/// Appends the bytes of a call whose first argument is a table.
pub(crate) fn put_call_on(
    bytes: &mut Vec<u8>,
    name: &str,
    table: &TableId,
    others: &[Term],
) -> Result<(), ExternalTermError> {
    bytes.extend_from_slice(&[VERSION, 104, 2]);
    put_atom(bytes, name)?;
    put_count(bytes, 108, 1 + others.len())?;
    match table {
        TableId::Name(name) => put_atom(bytes, name.as_str())?,
        TableId::Number(number) => put_reference(bytes, *number),
    }
    put_terms(bytes, Walk::over(others))?;
    bytes.push(LIST_END);
    Ok(())
}

fn put_terms(bytes: &mut Vec<u8>, mut walk: Walk<'_>) -> Result<(), ExternalTermError> {
    while let Some(visit) = walk.next() {
        match visit {
            Visit::Enter(Term::Int(number)) => put_integer(bytes, *number),
            Visit::Enter(Term::Atom(text)) => put_atom(bytes, text)?,
            Visit::Enter(Term::Pid(number)) => put_pid(bytes, *number),
            Visit::Enter(Term::Tid(number)) => put_reference(bytes, *number),
            Visit::Enter(Term::Binary(content)) => {
                put_count(bytes, 109, content.len())?;
                bytes.extend_from_slice(content);
            }
            Visit::Enter(Term::Tuple(elements)) => begin_tuple(bytes, elements.len())?,
            Visit::Enter(Term::List(elements)) => {
                if !begin_list(bytes, elements)? {
                    walk.skip_elements();
                }
            }
            Visit::Leave(Term::List(_)) => bytes.push(LIST_END),
            Visit::Leave(_) => {}
        }
    }
    Ok(())
}

fn put_integer(bytes: &mut Vec<u8>, number: i128) {
    if let Ok(small) = u8::try_from(number) {
        bytes.extend_from_slice(&[97, small]);
    } else if let Ok(middle) = i32::try_from(number) {
        bytes.push(98);
        bytes.extend_from_slice(&middle.to_be_bytes());
    } else {
        let digits = number.unsigned_abs().to_le_bytes();
        let len = 16 - digits.iter().rev().take_while(|it| **it == 0).count();
        bytes.extend_from_slice(&[110, len as u8, u8::from(number < 0)]);
        bytes.extend_from_slice(&digits[..len]);
    }
}

fn put_atom(bytes: &mut Vec<u8>, text: &str) -> Result<(), ExternalTermError> {
    if text.len() > MAX_ATOM || !text.bytes().all(is_character) {
        return Err(ExternalTermError::new(BAD_ATOM, bytes.len()));
    }
    bytes.extend_from_slice(&[119, text.len() as u8]);
    bytes.extend_from_slice(text.as_bytes());
    Ok(())
}

fn put_pid(bytes: &mut Vec<u8>, number: u32) {
    bytes.extend_from_slice(&[88, 119, NODE.len() as u8]);
    bytes.extend_from_slice(NODE);
    bytes.extend_from_slice(&number.to_be_bytes());
    bytes.extend_from_slice(&[0; 8]);
}

fn put_reference(bytes: &mut Vec<u8>, number: u32) {
    bytes.extend_from_slice(&[90, 0, 1, 119, NODE.len() as u8]);
    bytes.extend_from_slice(NODE);
    bytes.extend_from_slice(&[0; 4]);
    bytes.extend_from_slice(&number.to_be_bytes());
}

fn begin_tuple(bytes: &mut Vec<u8>, count: usize) -> Result<(), ExternalTermError> {
    match u8::try_from(count) {
        Ok(count) => bytes.extend_from_slice(&[104, count]),
        Err(_) => put_count(bytes, 105, count)?,
    }
    Ok(())
}

/// Begins a list, and returns whether its elements and its end must follow. A list of bytes is written whole, as a
/// string, and so is an empty one.
fn begin_list(bytes: &mut Vec<u8>, elements: &[Term]) -> Result<bool, ExternalTermError> {
    if elements.is_empty() {
        bytes.push(LIST_END);
        return Ok(false);
    }
    if let (Ok(count), Some(codes)) = (u16::try_from(elements.len()), codes_of(elements)) {
        bytes.push(107);
        bytes.extend_from_slice(&count.to_be_bytes());
        bytes.extend_from_slice(&codes);
        return Ok(false);
    }
    put_count(bytes, 108, elements.len())?;
    Ok(true)
}

/// Returns the elements as bytes, if all are integers from 0 to 255.
fn codes_of(elements: &[Term]) -> Option<Vec<u8>> {
    let code = |it: &Term| if let Term::Int(number) = it { u8::try_from(*number).ok() } else { None };
    elements.iter().map(code).collect()
}

/// Appends a tag and a count of four bytes.
fn put_count(bytes: &mut Vec<u8>, tag: u8, count: usize) -> Result<(), ExternalTermError> {
    let count =
        u32::try_from(count).map_err(|_| ExternalTermError::new("2^32 or more elements or bytes", bytes.len()))?;
    bytes.push(tag);
    bytes.extend_from_slice(&count.to_be_bytes());
    Ok(())
}

pub(crate) const BAD_ATOM: &str = "not an atom of at most 255 printable ASCII characters";

pub(crate) fn is_character(byte: u8) -> bool {
    matches!(byte, b' '..=b'~')
}
