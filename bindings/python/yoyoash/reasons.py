"""The reasons of refusals as members of an enum, so that no program compares their texts."""

from __future__ import annotations

from enum import Enum


class Reason(Enum):
    """Why a call has no reply. The value is the text that people read. One that ends with a blank is the beginning of
    several texts."""

    # A rule of the call is broken.
    NO_PROCESS = "no such process (or it has exited)"
    PROCESS_USED = "process number already used"
    TOO_DEEP = "more than 128 levels deep"
    UNKNOWN_CALL = "unknown call"
    ARGUMENTS = "wrong number of arguments"
    NO_TABLE = "no such table"
    NOT_READABLE = "the process may not read this table"
    NOT_WRITABLE = "the process may not write to this table"
    NOT_OWNER = "the process does not own this table"
    NOT_A_SET = "the table is not a set"
    NOT_AN_OBJECT = "not a tuple that has the key position, or the key is '$end_of_table'"
    NO_KEY = "no such key"
    NOT_A_POSITION = "position must be at least 1"
    NO_ELEMENT = "position is past the end of the object"
    NOT_A_PATTERN = "pattern must be a tuple or an atom"
    NOT_A_SPECIFICATION = "malformed match specification"
    NOT_AN_UPDATE = "malformed update, or it would change the key"
    NOT_A_COUNTER = "the element is missing or not an integer"
    NOT_AN_ATOM = "table name must be an atom"
    NAME_USED = "table name already in use"
    BAD_OPTION = "unknown or malformed option"
    BAD_ITEM = "unknown info item"
    NOT_A_BOOLEAN = "must be true or false"
    NOT_A_PID = "not a pid"
    OWNS_ALREADY = "the process already owns the table"
    PROCESS_LIMIT = "process limit reached"
    TABLE_LIMIT = "table limit reached"
    OBJECT_LIMIT = "object limit reached"
    FIX_LIMIT = "fix limit reached"
    LIMIT_EXCEEDED = "integer range, depth limit or object limit would be exceeded"
    OUT_OF_MEMORY = "out of memory"
    # Bytes, or a text, are not a call.
    TRUNCATED = "the bytes end inside a term"
    BAD_VERSION = "the first byte is not the version 131"
    UNSUPPORTED_TAG = "unsupported tag"
    IMPROPER_LIST = "improper lists are not supported"
    BAD_ATOM = "not an atom of at most 255 printable ASCII characters"
    INTEGER_RANGE = "integer out of range"
    OTHER_NODE = "a pid or reference of another node"
    NOT_A_CALL = "expected a tuple of the call's name and the list of its arguments"
    TRAILING_BYTES = "unexpected bytes after the call"
    NOT_A_CALL_TEXT = "expected a tuple that begins with the call's name"
    TRAILING_TEXT = "unexpected text after the call"
    COMMENT = "comments must be on their own line"
    VARIABLE = "variables are not supported"
    FLOAT = "floats are not supported"
    MAP = "maps are not supported"
    BAD_REFERENCE = "references other than #Tid<N> are not supported"
    CHARACTER = "character literals are not supported"
    INTEGER_BASE = "integers with a base are not supported"
    LONG_ATOM = "atom longer than 255 characters"
    BAD_ESCAPE = "only "
    NOT_PRINTABLE = "not a printable ASCII character "
    UNEXPECTED = "unexpected "
    # The package itself refuses the call, or the store is gone.
    NOT_A_LINE = "neither a call nor spawn or exit with a name"
    TOO_LONG = "the call has "
    CLOSED = "the store is closed"
    NOT_OPEN = "the store is not open: use `async with`, or call open()"
    FORKED = "this process was forked after the store was opened, and the store stays with its parent"
    INTERRUPTED = "an earlier call was interrupted"
    NOT_PACKETS = "the program does not print packets: start it with --external"
    TOO_MANY_REPLIES = "the program printed more replies than it was sent calls"
    ENDED = "the program "
    # A text that this version does not know, or none at all.
    OTHER = ""

    @classmethod
    def of(cls, text: str) -> Reason:
        """Returns the reason with this text, which may begin with the number of an argument."""
        _, text = split(text)
        found = [_EXACT[text]] if text in _EXACT else []
        found += [it for end, it in _ENDINGS.items() if text.endswith(end)]
        found += [it for begin, it in _BEGINNINGS.items() if text.startswith(begin)]
        return found[0] if found else cls.OTHER


# The texts of the package that have a name before them.
NEVER_SPAWNED, ALREADY_SPAWNED = " was never spawned", " was already spawned"
_EXACT = {it.value: it for it in Reason}
_ENDINGS = {NEVER_SPAWNED: Reason.NO_PROCESS, ALREADY_SPAWNED: Reason.PROCESS_USED}
_BEGINNINGS = {it.value: it for it in Reason if it.value.endswith(" ")}


def split(text: str) -> tuple[int | None, str]:
    """Returns the number of the argument that a text is about, if it names one, and the rest of the text."""
    head, colon, rest = text.partition(": ")
    number = head.removeprefix("argument ")
    if colon and number != head and number.isascii() and number.isdigit() and len(number) < 10:
        return int(number), rest
    return None, text
