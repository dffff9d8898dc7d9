//! Reads a term in Erlang's External Term Format.
use crate::external::{is_character, ExternalTermError, BAD_ATOM, MAX_ATOM, NODE, VERSION};
use crate::parse::MAX_DEPTH;
use crate::term::Term;

type Read<T> = Result<T, ExternalTermError>;

impl Term {
    /// Returns the term whose bytes these are, such as those of Erlang's `term_to_binary`. Reads what the store reads:
    /// no floats, maps, funs or improper lists, and of pids and references only those of the node `nonode@nohost`.
    /// Nothing may follow the term.
    ///
    /// ```
    /// use yoyoash::Term;
    ///
    /// assert_eq!(Term::from_external(b"\x83k\x00\x02ab").unwrap().to_string(), "[97,98]");
    /// assert_eq!(Term::from_external(b"\x83F").unwrap_err().to_string(), "not a term: unsupported tag at offset 1");
    /// ```
    pub fn from_external(bytes: &[u8]) -> Result<Term, ExternalTermError> {
        let mut reader = Reader { bytes, at: 0 };
        if reader.number::<1>()? != VERSION.into() {
            return Err(ExternalTermError::new("the first byte is not the version 131", 0));
        }
        let term = reader.term(MAX_DEPTH)?;
        if reader.at < bytes.len() {
            return Err(ExternalTermError::new("unexpected bytes after the term", reader.at));
        }
        Ok(term)
    }
}

/// A place in bytes.
struct Reader<'a> {
    bytes: &'a [u8],
    at: usize,
}

impl<'a> Reader<'a> {
    /// Reads a piece of `len` bytes.
    fn piece(&mut self, len: usize) -> Read<&'a [u8]> {
        let rest = &self.bytes[self.at..];
        let piece = rest.get(..len).ok_or(ExternalTermError::new("the bytes end inside a term", self.at))?;
        self.at += len;
        Ok(piece)
    }

    /// Reads an unsigned number of `N` bytes.
    fn number<const N: usize>(&mut self) -> Read<usize> {
        let piece = self.piece(N)?;
        Ok(piece.iter().fold(0, |number, byte| number << 8 | usize::from(*byte)))
    }

    /// Reads a term with at most this many levels.
    fn term(&mut self, levels: usize) -> Read<Term> {
        let start = self.at;
        if levels == 0 {
            return Err(ExternalTermError::new("too many levels", start));
        }
        match self.number::<1>()? {
            97 => Ok(Term::Int(self.number::<1>()? as i128)),
            98 => Ok(Term::Int((self.number::<4>()? as u32 as i32).into())),
            110 => self.big(start),
            104 => Ok(Term::Tuple(self.row::<1>(levels)?)),
            105 => Ok(Term::Tuple(self.row::<4>(levels)?)),
            106 => Ok(Term::List(vec![])),
            107 => self.string(),
            108 => self.list(levels),
            109 => Ok(Term::Binary(self.counted::<4>()?.to_vec())),
            tag => self.name(start, tag),
        }
    }

    /// Reads the rest of an atom, a pid or a reference.
    fn name(&mut self, start: usize, tag: usize) -> Read<Term> {
        match tag {
            119 | 115 => atom(self.counted::<1>()?, start),
            118 | 100 => atom(self.counted::<2>()?, start),
            88 => Ok(Term::Pid(self.identifier(start, 0, 8)?)),
            103 => Ok(Term::Pid(self.identifier(start, 0, 5)?)),
            101 => Ok(Term::Tid(self.identifier(start, 0, 1)?)),
            90 => self.reference(start, 4),
            114 => self.reference(start, 1),
            _ => Err(ExternalTermError::new("unsupported tag", start)),
        }
    }

    /// Reads a count of `N` bytes and a piece of this length.
    fn counted<const N: usize>(&mut self) -> Read<&'a [u8]> {
        let len = self.number::<N>()?;
        self.piece(len)
    }

    /// Reads a count of `N` bytes and this number of terms.
    fn row<const N: usize>(&mut self, levels: usize) -> Read<Vec<Term>> {
        let count = self.number::<N>()?;
        // Each takes a byte or more, so a count beyond the rest takes no memory.
        let (after, _) = (self.at, self.piece(count)?);
        self.at = after;
        (0..count).map(|_| self.term(levels - 1)).collect()
    }

    fn list(&mut self, levels: usize) -> Read<Term> {
        let elements = self.row::<4>(levels)?;
        let tail = self.at;
        if self.number::<1>()? != 106 {
            return Err(ExternalTermError::new("improper lists are not supported", tail));
        }
        Ok(Term::List(elements))
    }

    fn string(&mut self) -> Read<Term> {
        let codes = self.counted::<2>()?;
        Ok(Term::List(codes.iter().map(|code| Term::Int((*code).into())).collect()))
    }

    /// Reads an integer of a sign and digits, the lowest first.
    fn big(&mut self, start: usize) -> Read<Term> {
        let (len, sign) = (self.number::<1>()?, self.number::<1>()?);
        let digits = self.piece(len)?;
        let too_large = ExternalTermError::new("integer out of range", start);
        if len > 16 {
            return Err(too_large);
        }
        let magnitude = digits.iter().rev().fold(0u128, |number, digit| number << 8 | u128::from(*digit));
        let number = match sign {
            0 => i128::try_from(magnitude).ok(),
            // (the least number is not the opposite of an i128)
            _ if magnitude == i128::MIN.unsigned_abs() => Some(i128::MIN),
            _ => i128::try_from(magnitude).ok().map(|number| -number),
        };
        number.map(Term::Int).ok_or(too_large)
    }

    /// Reads the number of a reference with one or more words, of which the first is the number.
    fn reference(&mut self, start: usize, creation: usize) -> Read<Term> {
        match self.number::<2>()? {
            0 => Err(foreign(start)),
            words => Ok(Term::Tid(self.identifier(start, creation, 4 * words - 4)?)),
        }
    }

    /// Reads a node, `before` bytes, a number and `behind` bytes. Only the number of our own identifiers differs from
    /// 0.
    fn identifier(&mut self, start: usize, before: usize, behind: usize) -> Read<u32> {
        let place = self.at;
        let node = match self.number::<1>()? {
            119 | 115 => self.counted::<1>()?,
            118 | 100 => self.counted::<2>()?,
            _ => return Err(ExternalTermError::new(BAD_ATOM, place)),
        };
        let rest = self.piece(before + 4 + behind)?;
        let (number, after) = rest[before..].split_at(4);
        if node != NODE || rest[..before].iter().chain(after).any(|byte| *byte != 0) {
            return Err(foreign(start));
        }
        Ok(number.iter().fold(0, |number, byte| number << 8 | u32::from(*byte)))
    }
}

fn foreign(start: usize) -> ExternalTermError {
    ExternalTermError::new("a pid or reference of another node", start)
}

fn atom(text: &[u8], start: usize) -> Read<Term> {
    match std::str::from_utf8(text) {
        Ok(text) if text.len() <= MAX_ATOM && text.bytes().all(is_character) => Ok(Term::Atom(text.to_owned())),
        _ => Err(ExternalTermError::new(BAD_ATOM, start)),
    }
}
