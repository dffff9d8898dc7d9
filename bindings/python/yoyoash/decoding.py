"""Reads a term from bytes in Erlang's External Term Format."""

from __future__ import annotations

import struct
from collections.abc import Callable

from .external import MOST
from .terms import GREATEST, LEAST, Atom, Pid, Term, Tid

_NODE = b"nonode@nohost"
_signed = struct.Struct(">i").unpack_from
_long = struct.Struct(">I").unpack_from
_short = struct.Struct(">H").unpack_from


class _Atoms(dict[bytes, Atom]):
    """Keeps atoms by their bytes, since replies repeat a few of them."""

    def __missing__(self, text: bytes) -> Atom:
        if len(self) >= MOST:
            self.clear()
        atom = self[text] = Atom(text.decode("latin-1"))
        return atom


_ATOMS = _Atoms()


def decode(data: bytes) -> Term:
    """Returns the term whose bytes these are, such as those of Erlang's `term_to_binary`. Raises a ValueError for other
    bytes, and for terms that the store does not have."""
    if not isinstance(data, bytes):
        data = bytes(memoryview(data))
    usual: Term | None = _REPLIES.get(data)
    if usual is None:
        usual = _pair(data) if data[:8] == _PAIR else None
    return _whole(data) if usual is None else usual


_PAIR = b"\x83l\0\0\0\1h\2"
_REPLIES = {b"\x83w\4true": Atom("true"), b"\x83w\5false": Atom("false")}


def _pair(data: bytes) -> Term | None:
    """Reads the usual reply of a lookup: a pair of small terms, in a list. Returns None for any other term."""
    try:
        key, at = _leaf(data, 8)
        value, at = _leaf(data, at)
    except (LookupError, struct.error, ValueError):
        return None
    return [(key, value)] if data[at:] == b"j" else None


def _leaf(data: bytes, at: int) -> tuple[Term, int]:
    tag = data[at]
    if tag == 97:
        return data[at + 1], at + 2
    if tag == 98:
        return _signed(data, at + 1)[0], at + 5
    if tag == 119:
        end = at + 2 + data[at + 1]
        return _ATOMS[data[at + 2 : end]], end
    raise LookupError


def _whole(data: bytes) -> Term:
    """Reads any term, with nothing after it."""
    if data[:1] != b"\x83":
        raise _fault("the first byte is not the version 131", 0)
    term, end = _term(data)
    if end != len(data):
        raise _fault("unexpected bytes after the term", end)
    return term


def _fault(problem: str, at: int) -> ValueError:
    return ValueError(f"not a term: {problem} at offset {at}")


def _term(data: bytes) -> tuple[Term, int]:
    """Reads any term, after the version. Returns the term and where it ends. Keeps the open tuples and lists in a list, so
    depth needs no recursion."""
    begun: list[tuple[list[Term], int, bool]] = []
    terms: list[Term] = []
    term: Term | None
    is_list, count, at, start = False, 1, 1, 1
    try:
        while True:
            start = at
            tag = data[at]
            if tag == 97:
                term, at = data[at + 1], at + 2
            elif tag == 119:
                at += 2 + data[at + 1]
                term = _ATOMS[data[start + 2 : at]]
            elif tag == 98:
                term, at = _signed(data, at + 1)[0], at + 5
            elif tag == 108 or tag == 104 or tag == 105:
                begun.append((terms, count, is_list))
                count, at = (data[at + 1], at + 2) if tag == 104 else (_long(data, at + 1)[0], at + 5)
                terms, is_list, term = [], tag == 108, None
            else:
                term, at = _OTHERS.get(tag, _unknown)(data, at)
            if term is not None:
                terms.append(term)
            while len(terms) == count:
                if not begun:
                    if at > len(data):
                        raise IndexError
                    return terms[0], at
                if is_list:
                    start = at
                    if data[at] != 106:
                        raise _fault("improper lists are not supported", at)
                    at += 1
                ended: Term = terms if is_list else tuple(terms)
                terms, count, is_list = begun.pop()
                terms.append(ended)
    except (IndexError, struct.error):
        raise _fault("the bytes end inside a term", start) from None


def _string(data: bytes, at: int) -> tuple[Term, int]:
    end = at + 3 + _short(data, at + 1)[0]
    return list(data[at + 3 : end]), end


def _binary(data: bytes, at: int) -> tuple[Term, int]:
    end = at + 5 + _long(data, at + 1)[0]
    return data[at + 5 : end], end


def _big(data: bytes, at: int) -> tuple[Term, int]:
    """Reads an integer of a sign and digits, the lowest first."""
    end = at + 3 + data[at + 1]
    magnitude = int.from_bytes(data[at + 3 : end], "little")
    number = -magnitude if data[at + 2] else magnitude
    if end <= len(data) and (data[at + 1] > 16 or not LEAST <= number <= GREATEST):
        raise _fault("integer out of range", at)
    return number, end


def _name(data: bytes, at: int) -> tuple[bytes, int]:
    """Reads the characters of an atom with any tag."""
    if data[at] not in (100, 115, 118, 119):
        raise _fault("no atom", at)
    begin, size = (at + 2, data[at + 1]) if data[at] in (115, 119) else (at + 3, _short(data, at + 1)[0])
    return data[begin : begin + size], begin + size


def _atom(data: bytes, at: int) -> tuple[Term, int]:
    text, end = _name(data, at)
    return _ATOMS[text], end


def _number(data: bytes, start: int, node_at: int, before: int, behind: int) -> tuple[int, int]:
    """Reads a node, `before` bytes, a number and `behind` bytes. Only the number of our own identifiers differs from
    0."""
    node, at = _name(data, node_at)
    number, end = _long(data, at + before)[0], at + before + 4 + behind
    if end <= len(data) and (node != _NODE or any(data[at : at + before]) or any(data[end - behind : end])):
        raise _fault("a pid or reference of another node", start)
    return number, end


def _pid(data: bytes, at: int) -> tuple[Term, int]:
    number, end = _number(data, at, at + 1, 0, 8 if data[at] == 88 else 5)
    return Pid(number), end


def _reference(data: bytes, at: int) -> tuple[Term, int]:
    """Reads a reference, whose first word is the number of a table identifier."""
    words = _short(data, at + 1)[0]
    if not words:
        raise _fault("a pid or reference of another node", at)
    number, end = _number(data, at, at + 3, 4 if data[at] == 90 else 1, 4 * words - 4)
    return Tid(number), end


def _old_reference(data: bytes, at: int) -> tuple[Term, int]:
    number, end = _number(data, at, at + 1, 0, 1)
    return Tid(number), end


def _unknown(data: bytes, at: int) -> tuple[Term, int]:
    raise _fault("unsupported tag", at)


# Reads a term by its tag.
_OTHERS: dict[int, Callable[[bytes, int], tuple[Term, int]]] = {
    88: _pid,
    90: _reference,
    100: _atom,
    101: _old_reference,
    103: _pid,
    106: lambda data, at: ([], at + 1),
    107: _string,
    109: _binary,
    110: _big,
    114: _reference,
    115: _atom,
    118: _atom,
}
