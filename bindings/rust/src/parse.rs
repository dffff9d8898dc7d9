//! Reads the text of a term.
use crate::term::{is_name_byte, Term};
use std::fmt;
use std::str::FromStr;

/// The most levels of a term that is read.
pub(crate) const MAX_DEPTH: usize = 256;
/// The most characters of an atom.
const MAX_ATOM: usize = 255;

/// A text that is not a term. The offset is that of the first byte that does not fit.
///
/// ```
/// let error = "{apple".parse::<yoyoash::Term>().unwrap_err();
/// assert_eq!(error.to_string(), "not a term: unexpected byte at offset 6");
/// ```
#[derive(Clone, Copy, Debug, PartialEq, Eq)]
pub struct ParseTermError {
    offset: usize,
}

impl ParseTermError {
    /// Returns the offset of the fault in bytes, from 0.
    ///
    /// ```
    /// assert_eq!("{apple".parse::<yoyoash::Term>().unwrap_err().offset(), 6);
    /// ```
    pub fn offset(&self) -> usize {
        self.offset
    }
}

impl fmt::Display for ParseTermError {
    fn fmt(&self, f: &mut fmt::Formatter<'_>) -> fmt::Result {
        write!(f, "not a term: unexpected byte at offset {}", self.offset)
    }
}

impl std::error::Error for ParseTermError {}

impl FromStr for Term {
    type Err = ParseTermError;

    fn from_str(text: &str) -> Result<Term, ParseTermError> {
        let mut cursor = Cursor { text: text.as_bytes(), at: 0 };
        cursor.skip_blanks();
        let term = cursor.term(MAX_DEPTH)?;
        cursor.skip_blanks();
        if cursor.at < cursor.text.len() {
            return cursor.fail();
        }
        Ok(term)
    }
}

/// A place in a text.
struct Cursor<'a> {
    text: &'a [u8],
    at: usize,
}

impl Cursor<'_> {
    fn fail<T>(&self) -> Result<T, ParseTermError> {
        Err(ParseTermError { offset: self.at })
    }

    fn peek(&self) -> Option<u8> {
        self.text.get(self.at).copied()
    }

    fn skip_blanks(&mut self) {
        while matches!(self.peek(), Some(b' ' | b'\t' | b'\r' | b'\n')) {
            self.at += 1;
        }
    }

    /// Goes past these bytes, if they are next.
    fn eat(&mut self, bytes: &[u8]) -> bool {
        let is_next = self.text[self.at..].starts_with(bytes);
        if is_next {
            self.at += bytes.len();
        }
        is_next
    }

    fn expect(&mut self, bytes: &[u8]) -> Result<(), ParseTermError> {
        if self.eat(bytes) {
            Ok(())
        } else {
            self.fail()
        }
    }

    fn term(&mut self, depth: usize) -> Result<Term, ParseTermError> {
        match self.peek() {
            _ if depth == 0 => self.fail(),
            Some(b'-' | b'0'..=b'9') => Ok(Term::Int(self.number()?)),
            Some(b'a'..=b'z') => self.plain_atom(),
            Some(b'\'') => self.quoted_atom(),
            Some(b'"') => Ok(Term::List(self.quoted(b'"')?.into_iter().map(|code| Term::Int(code.into())).collect())),
            Some(b'{') => Ok(Term::Tuple(self.row(b"{", b"}", |cursor| cursor.term(depth - 1))?)),
            Some(b'[') => Ok(Term::List(self.row(b"[", b"]", |cursor| cursor.term(depth - 1))?)),
            Some(b'#') => Ok(Term::Tid(self.numbered(b"#Tid<", b">")?)),
            Some(b'<') if self.text[self.at..].starts_with(b"<<") => self.binary(),
            Some(b'<') => Ok(Term::Pid(self.numbered(b"<0.", b".0>")?)),
            _ => self.fail(),
        }
    }

    /// Reads an integer of a type, with a sign if the type has one.
    fn number<T: FromStr>(&mut self) -> Result<T, ParseTermError> {
        let start = self.at;
        self.eat(b"-");
        while matches!(self.peek(), Some(b'0'..=b'9')) {
            self.at += 1;
        }
        let digits = std::str::from_utf8(&self.text[start..self.at]).unwrap_or("");
        digits.parse().map_err(|_| ParseTermError { offset: start })
    }

    fn numbered(&mut self, before: &[u8], after: &[u8]) -> Result<u32, ParseTermError> {
        self.expect(before)?;
        let number = self.number()?;
        self.expect(after)?;
        Ok(number)
    }

    fn plain_atom(&mut self) -> Result<Term, ParseTermError> {
        let start = self.at;
        while self.peek().map_or(false, is_name_byte) {
            self.at += 1;
        }
        atom(&self.text[start..self.at], start)
    }

    fn quoted_atom(&mut self) -> Result<Term, ParseTermError> {
        let start = self.at;
        atom(&self.quoted(b'\'')?, start)
    }

    /// Reads printable characters between two quotes; the quote and a backslash have a backslash before them.
    fn quoted(&mut self, quote: u8) -> Result<Vec<u8>, ParseTermError> {
        self.expect(&[quote])?;
        let mut read = Vec::new();
        loop {
            let is_escaped = self.eat(b"\\");
            match self.peek() {
                Some(byte) if is_escaped && (byte == quote || byte == b'\\') => read.push(byte),
                Some(byte) if !is_escaped && byte == quote => break,
                Some(byte @ b' '..=b'~') if !is_escaped => read.push(byte),
                _ => return self.fail(),
            }
            self.at += 1;
        }
        self.expect(&[quote])?;
        Ok(read)
    }

    fn binary(&mut self) -> Result<Term, ParseTermError> {
        let start = self.at;
        self.expect(b"<<")?;
        self.skip_blanks();
        if self.peek() == Some(b'"') {
            let bytes = self.quoted(b'"')?;
            self.skip_blanks();
            self.expect(b">>")?;
            return Ok(Term::Binary(bytes));
        }
        self.at = start;
        Ok(Term::Binary(self.row(b"<<", b">>", Cursor::number)?))
    }

    /// Reads a row of parts between two signs, separated by commas.
    fn row<T>(
        &mut self,
        opening: &[u8],
        closing: &[u8],
        part: impl Fn(&mut Self) -> Result<T, ParseTermError>,
    ) -> Result<Vec<T>, ParseTermError> {
        let mut row = Vec::new();
        self.expect(opening)?;
        self.skip_blanks();
        while !self.eat(closing) {
            if !row.is_empty() {
                self.expect(b",")?;
                self.skip_blanks();
            }
            row.push(part(self)?);
            self.skip_blanks();
        }
        Ok(row)
    }
}

fn atom(bytes: &[u8], offset: usize) -> Result<Term, ParseTermError> {
    match std::str::from_utf8(bytes) {
        Ok(text) if text.len() <= MAX_ATOM => Ok(Term::Atom(text.to_owned())),
        _ => Err(ParseTermError { offset }),
    }
}
