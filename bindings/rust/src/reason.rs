//! The reasons of refusals.
use std::fmt;

macro_rules! reasons {
    ($($(#[$comment:meta])* $name:ident = $text:literal,)*) => {
        /// The reason why a call was refused: the rule that it broke. `Display` prints it in words. New reasons may be
        /// added.
        ///
        /// ```
        /// use yoyoash::{Reason, Store};
        ///
        /// let process = Store::new().unwrap().spawn().unwrap();
        /// let error = process.table("prices").lookup("apple").unwrap_err();
        /// assert_eq!((error.reason(), error.argument()), (Reason::NoTable, Some(1)));
        /// assert_eq!(error.reason().to_string(), "no such table");
        /// ```
        #[derive(Clone, Copy, Debug, PartialEq, Eq, Hash)]
        #[non_exhaustive]
        pub enum Reason {
            $($(#[$comment])* $name,)*
            /// The library gave no reason, or one that this crate does not know: then the library is newer.
            /// [`Error::text`](crate::Error::text) has its words.
            Other,
        }

        /// Each reason with its text. A text that ends with a blank is that of all reasons that begin so.
        const REASONS: &[(Reason, &str)] = &[$((Reason::$name, $text)),*];
    };
}

reasons! {
    /// The process was never spawned, or has exited.
    NoProcess = "no such process (or it has exited)",
    /// The number was the number of a process before.
    ProcessUsed = "process number already used",
    /// An argument has too many levels: more than 126 in a method of [`Table`](crate::Table) or
    /// [`Store::ask`](crate::Store::ask), more than 127 in [`Store::call_with`](crate::Store::call_with). An integer, an
    /// atom or a binary has one level, and a tuple or list one more than the deepest of its elements. The 128 levels of
    /// the text count those of the call too.
    TooDeep = "more than 128 levels deep",
    /// No call has this name.
    UnknownCall = "unknown call",
    /// The call has another number of arguments.
    WrongArguments = "wrong number of arguments",
    /// The table does not exist.
    NoTable = "no such table",
    /// The table is private, and another process owns it.
    NotReadable = "the process may not read this table",
    /// The table is not public, and another process owns it.
    NotWritable = "the process may not write to this table",
    /// Another process owns the table.
    NotOwner = "the process does not own this table",
    /// The table is a bag or a duplicate bag, and the call is for sets.
    NotASet = "the table is not a set",
    /// The term is not an object of the table.
    NotAnObject = "not a tuple that has the key position, or the key is '$end_of_table'",
    /// The key has no objects.
    NoKey = "no such key",
    /// Positions begin at 1.
    NotAPosition = "position must be at least 1",
    /// An object has fewer elements.
    NoElement = "position is past the end of the object",
    /// The term is not a pattern.
    NotAPattern = "pattern must be a tuple or an atom",
    /// The term is not a match specification.
    NotASpecification = "malformed match specification",
    /// The term is not an update, or it would change the key.
    NotAnUpdate = "malformed update, or it would change the key",
    /// The element does not exist, or is not an integer.
    NotACounter = "the element is missing or not an integer",
    /// The name of a table is an atom.
    NotAnAtom = "table name must be an atom",
    /// Another table has the name.
    NameUsed = "table name already in use",
    /// The term is not an option.
    BadOption = "unknown or malformed option",
    /// The term is not an item of `info`.
    BadItem = "unknown info item",
    /// The term is neither `true` nor `false`.
    NotABoolean = "must be true or false",
    /// The term is not the identifier of a process.
    NotAPid = "not a pid",
    /// The process to give the table to owns it already.
    OwnsAlready = "the process already owns the table",
    /// The store has had as many processes as its limits allow.
    ProcessLimit = "process limit reached",
    /// The store has had as many tables as its limits allow.
    TableLimit = "table limit reached",
    /// The table has as many objects as the limits allow.
    ObjectLimit = "object limit reached",
    /// The process has as many fixes as a table can have.
    FixLimit = "fix limit reached",
    /// An integer, an object or the table would become too large.
    LimitExceeded = "integer range, depth limit or object limit would be exceeded",
    /// There was no memory for the call.
    OutOfMemory = "out of memory",
    /// The bytes of a call end too early.
    Truncated = "the bytes end inside a term",
    /// The bytes are not in Erlang's External Term Format.
    BadVersion = "the first byte is not the version 131",
    /// The bytes have a term that the store cannot have, such as a float.
    UnsupportedTag = "unsupported tag",
    /// A list does not end with `[]`.
    ImproperList = "improper lists are not supported",
    /// An atom is too long, or not of printable ASCII characters.
    BadAtom = "not an atom of at most 255 printable ASCII characters",
    /// An integer has more than 128 bits.
    IntegerRange = "integer out of range",
    /// The process or table is of another node of Erlang.
    OtherNode = "a pid or reference of another node",
    /// The bytes are a term, but not a call.
    NotACall = "expected a tuple of the call's name and the list of its arguments",
    /// Bytes follow the call.
    TrailingBytes = "unexpected bytes after the call",
    /// A part has 4,294,967,296 elements or bytes, or more.
    TooLong = "2^32 or more elements or bytes",
    /// The text is not a call.
    NotACallText = "expected a tuple that begins with the call's name",
    /// Text follows the call.
    TrailingText = "unexpected text after the call",
    /// The text has a comment after the call.
    Comment = "comments must be on their own line",
    /// The text has a variable.
    Variable = "variables are not supported",
    /// The text has a float.
    Float = "floats are not supported",
    /// The text has a map.
    Map = "maps are not supported",
    /// The text has a reference that is not the identifier of a table.
    BadReference = "references other than #Tid<N> are not supported",
    /// The text has a character such as `$a`.
    Character = "character literals are not supported",
    /// The text has an integer such as `16#ff`.
    IntegerBase = "integers with a base are not supported",
    /// The text has an atom of more than 255 characters.
    LongAtom = "atom longer than 255 characters",
    /// The text has a backslash before a character that cannot have one.
    BadEscape = "only ",
    /// The text has a byte that is not a printable ASCII character.
    NotPrintable = "not a printable ASCII character ",
    /// The text has a byte, or an end, where it cannot be.
    Unexpected = "unexpected ",
}

impl Reason {
    /// Returns the reason of a text, and the number of the argument that it is about.
    pub(crate) fn of_text(text: &str) -> (Reason, Option<usize>) {
        let numbered = text.strip_prefix("argument ").and_then(|rest| rest.split_once(": "));
        let (argument, text) = match numbered.and_then(|(number, rest)| Some((number.parse().ok()?, rest))) {
            Some((number, rest)) => (Some(number), rest),
            None => (None, text),
        };
        let is_of = |known: &str| text == known || (known.ends_with(' ') && text.starts_with(known));
        let found = REASONS.iter().find(|(_, known)| is_of(known));
        (found.map_or(Reason::Other, |(reason, _)| *reason), argument)
    }
}

impl fmt::Display for Reason {
    fn fmt(&self, f: &mut fmt::Formatter<'_>) -> fmt::Result {
        f.write_str(match self {
            Reason::BadEscape => "only the quote and the backslash can be escaped",
            Reason::NotPrintable => "not a printable ASCII character",
            Reason::Unexpected => "unexpected text",
            Reason::Other => "a reason that this crate does not know",
            _ => REASONS.iter().find(|(reason, _)| reason == self).map_or("", |(_, text)| text),
        })
    }
}

#[cfg(test)]
mod tests {
    use super::*;
    use std::{env, fs};

    /// Files of the repository that have the texts of reasons.
    const SOURCES: [&str; 3] =
        ["node_reasons/src/words.rt", "node_reasons/src/syntax_words.rt", "node_text/src/call_problem.rt"];

    /// Returns the texts in quotes after `Rule::Name =>` or `Problem::Name =>`, as the library prints them.
    fn texts_of(source: &str) -> Vec<String> {
        let arms = source.split("=>").zip(source.split("=>").skip(1));
        let of_rules = arms.filter(|(before, _)| {
            let name = before.trim_end().rsplit(char::is_whitespace).next().unwrap_or("");
            name.contains("Rule::") || name.contains("Problem::")
        });
        of_rules
            .filter_map(|(_, after)| after.trim_start_matches(['{', ' ', '\n']).strip_prefix('"')?.split('"').next())
            .map(printed)
            .collect()
    }

    fn printed(text: &str) -> String {
        match text {
            "not a printable ASCII character" => format!("{text} (233)"),
            "can be escaped" => format!("only \\' and \\\\ {text}"),
            "unexpected" => format!("{text} ';'"),
            _ => text.to_owned(),
        }
    }

    #[test]
    fn all_texts_of_the_sources_are_known() {
        let crates = format!("{}/../../crates", env!("CARGO_MANIFEST_DIR"));
        if fs::metadata(&crates).is_err() {
            return; // (the crate is not in the repository)
        }
        let read = |file| fs::read_to_string(format!("{crates}/{file}")).unwrap();
        let texts: Vec<_> = SOURCES.iter().flat_map(|file| texts_of(&read(file))).collect();
        assert!(texts.len() > 50, "only {} texts were found", texts.len());
        for text in texts {
            assert_ne!(Reason::of_text(&text), (Reason::Other, None), "{text}");
            assert_eq!(Reason::of_text(&format!("argument 2: {text}")), (Reason::of_text(&text).0, Some(2)));
        }
    }

    #[test]
    fn other_texts_are_of_another_reason() {
        for text in
            ["", "argument", "argument 1", "argument x: no such table", "no such", "no such table ", "argument 1: "]
        {
            assert_eq!(Reason::of_text(text).0, Reason::Other, "{text}");
        }
    }
}
