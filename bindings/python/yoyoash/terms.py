"""Terms as Python values and their text: int, tuple, list and bytes, and Atom, Pid and Tid for the rest."""

from __future__ import annotations

from collections.abc import Callable, Iterable
from dataclasses import dataclass, field
from enum import Enum
from operator import attrgetter
from typing import Any, Final, NoReturn, TypeVar, Union

LEAST, GREATEST = -(2**127), 2**127 - 1
Made = TypeVar("Made")
# At most this many characters of a value or a call are in the text of an exception.
SHORT = 120


def shortened(text: str, most: int = SHORT) -> str:
    """Returns a text, without its middle if it is longer than this."""
    if len(text) <= most:
        return text
    return f"{text[: most * 2 // 3]}...{text[-(most // 3 - 3) :]}"


def written(value: object) -> str:
    """Returns what Python writes for a value, shortened. Python refuses to write some: very long integers, and lists that
    are deeper than its stack."""
    try:
        return shortened(repr(value))
    except (ValueError, RecursionError):
        return f"a value of the type {type(value).__name__}"


@dataclass(frozen=True, slots=True)
class Atom:
    """An atom of 0 to 255 printable ASCII characters. Any other text raises a ValueError here, before anything is
    sent."""

    text: str
    # Keeps the spelling, since an atom is made once and sent many times.
    _spelled: str = field(init=False, repr=False, compare=False)

    def __post_init__(self) -> None:
        if not isinstance(self.text, str):
            raise TypeError(f"{written(self.text)} is not a string: the text of an atom is one")
        if len(self.text) > 255 or not (self.text.isascii() and self.text.isprintable()):
            raise ValueError(f"{written(self.text)} is not an atom: an atom has 0 to 255 printable ASCII characters")
        object.__setattr__(self, "_spelled", "'" + self.text.replace("\\", "\\\\").replace("'", "\\'") + "'")

    def __bool__(self) -> bool:
        """Returns False for `false` only, so `if` works on replies that are `true` or `false`."""
        return self.text != "false"

    def __repr__(self) -> str:
        return f"Atom({self.text!r})"


@dataclass(frozen=True, slots=True)
class _Number:
    number: int

    def __post_init__(self) -> None:
        if type(self.number) is not int or not 0 <= self.number < 2**32:
            kind = type(self).__name__
            raise ValueError(f"{written(self.number)} is not the number of a {kind}: numbers go from 0 to 4294967295")

    def __repr__(self) -> str:
        return f"{type(self).__name__}({self.number})"


class Pid(_Number):
    """A process, `<0.N.0>`."""

    __slots__ = ()


class Tid(_Number):
    """The identifier of a table, `#Tid<N>`."""

    __slots__ = ()


Term = Union[int, Atom, Pid, Tid, tuple[Any, ...], list[Any], bytes, bytearray, memoryview]
# What names a table: its identifier, or the name of a named table. A string is the name as an atom.
Table = Union[Atom, Tid, str]

TRUE: Final = Atom("true")
FALSE: Final = Atom("false")
# The reply of `first` and `next` after the last key.
END_OF_TABLE: Final = Atom("$end_of_table")


class Absent(Enum):
    """The default of a parameter that a call may leave out. It is not a term."""

    ABSENT = 0

    def __repr__(self) -> str:
        return "ABSENT"


ABSENT: Final = Absent.ABSENT


def _integer(number: int) -> str:
    return repr(in_range(number))


def in_range(number: int) -> int:
    """Returns an integer that terms can have. Raises a ValueError otherwise."""
    if LEAST <= number <= GREATEST:
        return number
    raise ValueError(f"{written(number)} is out of range: integers go from -2**127 to 2**127 - 1")


_BYTES = tuple(map(str, range(256)))

# Spells each kind of term that contains no other terms.
LEAVES: dict[type, Callable[[Any], str]] = {
    int: _integer,
    Atom: attrgetter("_spelled"),
    Pid: lambda it: f"<0.{it.number}.0>",
    Tid: lambda it: f"#Tid<{it.number}>",
    bytes: lambda it: f"<<{','.join([_BYTES[byte] for byte in it])}>>",
    bytearray: lambda it: f"<<{','.join([_BYTES[byte] for byte in it])}>>",
    memoryview: lambda it: f"<<{','.join([_BYTES[byte] for byte in it.tobytes()])}>>",
}


_is_flat = frozenset(LEAVES).issuperset


def _tuple(it: tuple[Any, ...]) -> str:
    return f"{{{spell_all(it)}}}" if _is_flat(map(type, it)) else _nest(it)


def _list(it: list[Any]) -> str:
    return f"[{spell_all(it)}]" if _is_flat(map(type, it)) else _nest(it)


class Path:
    """The tuples and lists that are begun and not ended, by their identities. Finds a list that contains itself."""

    def __init__(self) -> None:
        self._begun: set[int] = set()

    def begin(self, it: object) -> End:
        """Begins a tuple or a list. Returns its end. Raises a ValueError if it is in itself."""
        if id(it) in self._begun:
            raise ValueError(f"a {type(it).__name__} that contains itself is not a term")
        self._begun.add(id(it))
        return End(id(it))

    def end(self, end: End) -> None:
        """Ends a tuple or a list."""
        self._begun.discard(end.identity)


class End:
    """The end of a tuple or a list, among terms that are left to do."""

    __slots__ = ("identity", "sign")

    def __init__(self, identity: int):
        self.identity, self.sign = identity, ""


_COMMA = End(0)
_COMMA.sign = ","


def _nest(nest: tuple[Any, ...] | list[Any]) -> str:
    """Spells a tuple or a list that contains others, to any depth, without recursion."""
    parts: list[str] = []
    path, left = Path(), list[Any]([nest])
    while left:
        it = left.pop()
        if type(it) is End:
            parts.append(it.sign)
            path.end(it)
        elif not isinstance(it, (tuple, list)) or _is_flat(map(type, it)):
            parts.append(spell(it))
        else:
            end = path.begin(it)
            opening, end.sign = ("{", "}") if isinstance(it, tuple) else ("[", "]")
            parts.append(opening)
            left.append(end)
            for element in reversed(it):
                left += element, _COMMA
            left.pop()
    return "".join(parts)


class ByType(dict[type, Callable[[Any], Made]]):
    """Maps each type to what its values are made into. A derived type is taken as its base."""

    def __missing__(self, kind: type) -> Callable[[Any], Made]:
        if issubclass(kind, bool):
            return _refuse
        if issubclass(kind, int):
            return lambda it: self[int](int(it))
        return next((made for base, made in self.items() if issubclass(kind, base)), _refuse)


def _refuse(it: object) -> NoReturn:
    raise TypeError(f"{written(it)} is not a term{_hint(it)}")


def _hint(it: object) -> str:
    """Returns what to write in place of a value."""
    if isinstance(it, bool):
        return f": an atom is Atom({str(it).lower()!r})"
    if not isinstance(it, str):
        return ""
    if not (it.isascii() and it.isprintable()) or len(it) > 40:
        return ': a binary is "text".encode(), and an atom is Atom("text")'
    return f": a binary is {it.encode()!r}, and an atom is Atom({it!r})"


SPELLED_BY: ByType[str] = ByType(LEAVES | {tuple: _tuple, list: _list})


def spell_all(terms: Iterable[Term]) -> str:
    """Returns the texts of terms, separated by commas. Raises as `spell` does."""
    return ",".join([SPELLED_BY[type(it)](it) for it in terms])


def spell(term: Term) -> str:
    """Returns the text of a term. Raises a TypeError for a value that is not a term, a ValueError for an integer out
    of range."""
    return SPELLED_BY[type(term)](term)
