"""The requests of the benchmarks: packets of terms in Erlang's External Term Format."""

import functools
import struct
from typing import Iterable

SPAWN = bytes(5)  # starts the process 0
PRIME = (
    7919  # divides no number of objects here, so the keys NUMBER * PRIME % COUNT are all different
)


def atom(text: str) -> bytes:
    return b"w" + bytes([len(text)]) + text.encode()


def integer(number: int) -> bytes:
    return b"b" + struct.pack(">i", number)


def row(*elements: bytes) -> bytes:
    return b"h" + bytes([len(elements)]) + b"".join(elements)


def listed(elements: Iterable[bytes]) -> bytes:
    known = list(elements)
    return b"l" + struct.pack(">I", len(known)) + b"".join(known) + b"j" if known else b"j"


def call(name: str, *arguments: bytes) -> bytes:
    """The request of process 0 for a call."""
    return b"\2" + bytes(4) + b"\x83" + row(atom(name), listed(arguments))


def new(table: str, kind: str = "set") -> bytes:
    return call("new", atom(table), listed([atom("named_table"), atom(kind)]))


@functools.cache
def objects(count: int) -> list[bytes]:
    """As many objects {Key,1}, in the order of ets_bulk.erl, which is not that of the keys."""
    return [row(integer(number * PRIME % count), integer(1)) for number in range(count)]


def one_list(table: str, count: int) -> list[bytes]:
    return [call("insert", atom(table), listed(objects(count)))]


def singly(table: str, count: int) -> list[bytes]:
    return [call("insert", atom(table), each) for each in objects(count)]


def by_lists(table: str, count: int, length: int = 1000) -> list[bytes]:
    known = objects(count)
    return [
        call("insert", atom(table), listed(known[at : at + length]))
        for at in range(0, count, length)
    ]
