"""Terms in Erlang's External Term Format: the bytes that `term_to_binary` writes."""

from __future__ import annotations

import struct
from collections.abc import Callable, Sequence
from typing import Any

from .terms import Atom, ByType, End, Path, Pid, Term, Tid, in_range

_VERSION = b"\x83"
# The node of all pids and references, as an atom of the format.
_NODE = b"w\x0dnonode@nohost"
_SMALL = tuple(bytes((97, it)) for it in range(256))
_middle, _count = struct.Struct(">Bi").pack, struct.Struct(">BI").pack
# This many atoms are kept by their texts.
MOST = 4_096


class _Encoded(dict[str, bytes]):
    """Keeps the bytes of atoms by their texts."""

    def __missing__(self, text: str) -> bytes:
        if len(self) >= MOST:
            self.clear()
        made = self[text] = b"w" + bytes((len(text),)) + text.encode("ascii")
        return made


_ATOMS = _Encoded()


def _integer(number: int) -> bytes:
    if 0 <= number < 256:
        return _SMALL[number]
    if -(2**31) <= number < 2**31:
        return _middle(98, number)
    magnitude = abs(in_range(number))
    size = (magnitude.bit_length() + 7) // 8
    return bytes((110, size, number < 0)) + magnitude.to_bytes(size, "little")


def _tuple(it: tuple[Any, ...]) -> bytes:
    return _nest(it) if _is_nested(it) else _tuple_head(it) + b"".join([ENCODED_BY[type(each)](each) for each in it])


def _tuple_head(it: tuple[Any, ...]) -> bytes:
    return bytes((104, len(it))) if len(it) < 256 else _count(105, len(it))


def _list(it: Sequence[Term]) -> bytes:
    if _is_nested(it):
        return _nest(it)
    if not it:
        return b"j"
    joined = b"".join([ENCODED_BY[type(each)](each) for each in it])
    # A list of bytes is a string. Only a byte begins with an `a`, and it has two bytes.
    if len(joined) == 2 * len(it) and len(it) < 2**16 and joined[::2].count(97) == len(it):
        return b"k" + len(it).to_bytes(2, "big") + joined[1::2]
    return _count(108, len(it)) + joined + b"j"


# Encodes each kind of term that contains no other terms.
LEAVES: dict[type, Callable[[Any], bytes]] = {
    int: _integer,
    Atom: lambda it: _ATOMS[it.text],
    Pid: lambda it: b"".join((b"X", _NODE, it.number.to_bytes(4, "big"), b"\0\0\0\0\0\0\0\0")),
    Tid: lambda it: b"".join((b"Z\0\1", _NODE, b"\0\0\0\0", it.number.to_bytes(4, "big"))),
    bytes: lambda it: b"".join((_count(109, len(it)), it)),
    bytearray: lambda it: b"".join((_count(109, len(it)), it)),
    memoryview: lambda it: b"".join((_count(109, it.nbytes), it.tobytes())),
}
_is_flat = frozenset(LEAVES).issuperset


def _is_nested(it: Sequence[Term]) -> bool:
    return not _is_flat(map(type, it)) and any(isinstance(each, (tuple, list)) for each in it)


def _nest(nest: Sequence[Term]) -> bytes:
    """Encodes a tuple or a list that contains others, to any depth, without recursion."""
    parts: list[bytes] = []
    path, left = Path(), list[Any]([nest])
    while left:
        it = left.pop()
        if type(it) is End:
            parts.append(b"j" if it.sign else b"")
            path.end(it)
        elif not isinstance(it, (tuple, list)) or not _is_nested(it):
            parts.append(ENCODED_BY[type(it)](it))
        else:
            end = path.begin(it)
            end.sign = "" if isinstance(it, tuple) else "]"
            parts.append(_tuple_head(it) if isinstance(it, tuple) else _count(108, len(it)))
            left.append(end)
            left += reversed(it)
    return b"".join(parts)


ENCODED_BY: ByType[bytes] = ByType(LEAVES | {tuple: _tuple, list: _list})


def encode(term: Term) -> bytes:
    """Returns the bytes that Erlang's `term_to_binary` writes for a term. Raises as `spell` does."""
    return _VERSION + ENCODED_BY[type(term)](term)


class _Heads(dict[tuple[str, int], bytes]):
    """Keeps the bytes of calls up to their arguments, by their names and numbers of arguments."""

    def __missing__(self, call: tuple[str, int]) -> bytes:
        name, count = call
        if len(self) >= MOST:
            self.clear()
        made = self[call] = b"\x83h\2" + _ATOMS[name] + _count(108, count)
        return made


_HEADS = _Heads()


def encode_call(name: str, terms: Sequence[Term]) -> bytes:
    """Returns the bytes of a call, `{Name,Arguments}`. Raises as `spell` does."""
    return b"".join([_HEADS[name, len(terms)], *[ENCODED_BY[type(it)](it) for it in terms], b"j"])
