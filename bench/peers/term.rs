//! Terms and their text, in hand-written Rust: the peer of `ets_term` and `term_text`.
use std::io::Write;

#[derive(Clone, Debug, PartialEq, Eq, Hash, PartialOrd, Ord)]
pub enum Term {
    Int(i128),
    Atom(Box<str>),
    Tid(u32),
    Pid(u32),
    Tuple(Vec<Term>),
    List(Vec<Term>),
    Binary(Vec<u8>),
}

pub fn atom(text: &str) -> Term {
    Term::Atom(text.into())
}

/// Reads one line from the left.
pub struct Reader<'a> {
    pub bytes: &'a [u8],
    pub at: usize,
}

impl<'a> Reader<'a> {
    fn peek(&self) -> u8 {
        self.bytes.get(self.at).copied().unwrap_or(0)
    }

    fn blanks(&mut self) {
        while matches!(self.peek(), b' ' | b'\t') {
            self.at += 1;
        }
    }

    pub fn takes(&mut self, sign: u8) -> bool {
        self.blanks();
        let there = self.peek() == sign;
        self.at += there as usize;
        there
    }

    pub fn word(&mut self) -> &'a str {
        self.blanks();
        let start = self.at;
        while self.peek().is_ascii_alphanumeric() || matches!(self.peek(), b'_' | b'@') {
            self.at += 1;
        }
        std::str::from_utf8(&self.bytes[start..self.at]).unwrap()
    }

    fn number(&mut self) -> i128 {
        let negative = self.peek() == b'-';
        self.at += negative as usize;
        let mut value: i128 = 0;
        while self.peek().is_ascii_digit() {
            let digit = i128::from(self.peek() - b'0');
            value = value.checked_mul(10).and_then(|v| if negative { v.checked_sub(digit) } else { v.checked_add(digit) }).expect("a number in range");
            self.at += 1;
        }
        value
    }

    fn quoted(&mut self, quote: u8) -> Vec<u8> {
        self.at += 1;
        let mut text = Vec::new();
        while self.peek() != quote {
            self.at += (self.peek() == b'\\') as usize;
            text.push(self.peek());
            self.at += 1;
        }
        self.at += 1;
        text
    }

    pub fn row(&mut self, close: u8) -> Vec<Term> {
        let mut row = Vec::new();
        if self.takes(close) {
            return row;
        }
        loop {
            row.push(self.term());
            if self.takes(close) {
                return row;
            }
            assert!(self.takes(b','), "a comma at {}", self.at);
        }
    }

    fn binary(&mut self) -> Term {
        self.at += 2;
        let bytes = match self.peek() {
            b'"' => self.quoted(b'"'),
            b'>' => Vec::new(),
            _ => {
                let mut bytes = vec![self.number() as u8];
                while self.takes(b',') {
                    self.blanks();
                    bytes.push(self.number() as u8);
                }
                bytes
            }
        };
        self.at += 2;
        Term::Binary(bytes)
    }

    pub fn term(&mut self) -> Term {
        self.blanks();
        match self.peek() {
            b'{' => {
                self.at += 1;
                Term::Tuple(self.row(b'}'))
            }
            b'[' => {
                self.at += 1;
                Term::List(self.row(b']'))
            }
            b'\'' => Term::Atom(String::from_utf8(self.quoted(b'\'')).unwrap().into()),
            b'"' => Term::List(self.quoted(b'"').into_iter().map(|b| Term::Int(b.into())).collect()),
            b'<' if self.bytes[self.at + 1] == b'<' => self.binary(),
            b'<' => {
                self.at += 3;
                let number = self.number() as u32;
                self.at += 3;
                Term::Pid(number)
            }
            b'#' => {
                self.at += 5;
                let number = self.number() as u32;
                self.at += 1;
                Term::Tid(number)
            }
            b'a'..=b'z' => atom(self.word()),
            _ => Term::Int(self.number()),
        }
    }
}

fn print_atom(text: &str, out: &mut Vec<u8>) {
    let plain = text.starts_with(|c: char| c.is_ascii_lowercase()) && text.bytes().all(|b| b.is_ascii_alphanumeric() || b == b'_' || b == b'@');
    if plain {
        return out.extend_from_slice(text.as_bytes());
    }
    out.push(b'\'');
    for byte in text.bytes() {
        if byte == b'\'' || byte == b'\\' {
            out.push(b'\\');
        }
        out.push(byte);
    }
    out.push(b'\'');
}

fn print_row<T>(open: &str, row: &[T], close: &str, out: &mut Vec<u8>, print: impl Fn(&T, &mut Vec<u8>)) {
    out.extend_from_slice(open.as_bytes());
    for (i, item) in row.iter().enumerate() {
        if i > 0 {
            out.push(b',');
        }
        print(item, out);
    }
    out.extend_from_slice(close.as_bytes());
}

pub fn print(term: &Term, out: &mut Vec<u8>) {
    match term {
        Term::Int(n) => write!(out, "{n}").unwrap(),
        Term::Atom(text) => print_atom(text, out),
        Term::Pid(n) => write!(out, "<0.{n}.0>").unwrap(),
        Term::Tid(n) => write!(out, "#Tid<{n}>").unwrap(),
        Term::Tuple(row) => print_row("{", row, "}", out, print),
        Term::List(row) => print_row("[", row, "]", out, print),
        Term::Binary(bytes) => print_row("<<", bytes, ">>", out, |b, out| write!(out, "{b}").unwrap()),
    }
}
