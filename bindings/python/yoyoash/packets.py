"""The packets of a program that runs with `--external`. docs/packets.md describes them."""

from __future__ import annotations

import itertools
import struct
from collections.abc import Callable
from typing import Any

from . import calling
from .faults import ANSWERS, BADARG, GONE, NO_PROCESS, SYNTAX, VALUE, Fault, TooLong, fault, gone
from .reasons import ALREADY_SPAWNED, NEVER_SPAWNED, Reason
from .script import Line, Misread, read_line
from .terms import Pid

SPAWN, EXIT, CALL = 0, 1, 2
# The program reads at most this many bytes of a packet, its length not counted.
MOST = 16_777_216
_head, _length = struct.Struct(">IBI").pack, struct.Struct(">I").unpack_from
NOT_PACKETS = Reason.NOT_PACKETS.value

# What a reply begins with.
_STATUSES = frozenset([VALUE, *ANSWERS]) - {GONE}


class NotPackets(Exception):
    """The program printed something else than packets."""


def packet(kind: int, pid: int, call: bytes = b"") -> bytes:
    """Returns the bytes of a request."""
    return _head(5 + len(call), kind, pid) + call


def fits(call: bytes) -> bool:
    """Returns whether a call fits a packet."""
    return len(call) <= MOST - 5


def too_long(line: str, call: bytes) -> Fault:
    """Returns the exception of a call that does not fit a packet."""
    return TooLong(line, "too long", f"{Reason.TOO_LONG.value}{len(call) + 5:,} bytes, and a packet at most {MOST:,}")


class Replies:
    """Cuts what a program prints into the bodies of its packets."""

    def __init__(self) -> None:
        self._begun = bytearray()

    def add(self, block: bytes) -> list[bytes]:
        """Returns the bodies that this block ends. Raises NotPackets."""
        if self._begun:
            self._begun += block
            return self._cut(self._begun)
        size = len(block)
        # The usual block is one reply.
        if size > 4 and _length(block)[0] == size - 4 and block[4] in _STATUSES:
            return [block[4:]]
        self._begun += block
        return self._cut(self._begun)

    def _cut(self, begun: bytearray) -> list[bytes]:
        bodies, at = [], 0
        while len(begun) >= at + 4:
            (size,) = _length(begun, at)
            if size == 0 or (len(begun) > at + 4 and begun[at + 4] not in _STATUSES):
                raise NotPackets
            if len(begun) < at + 4 + size:
                break
            bodies.append(bytes(begun[at + 4 : at + 4 + size]))
            at += 4 + size
        del begun[:at]
        return bodies

    def is_begun(self) -> bool:
        """Returns whether a packet is begun and not ended."""
        return bool(self._begun)


def result_of(body: bytes, line: Callable[..., str], *words: Any) -> Any:
    """Returns the reply of a packet, or its Fault. `line(*words)` is the line of the call."""
    if body[0] == VALUE:
        return calling.decoded(body[1:])
    return fault(line(*words), body[0], body[1:].decode("ascii", "replace"))


class Names:
    """The processes of a store by the names in lines. Threads may share it."""

    def __init__(self) -> None:
        self._pids: dict[str, Pid] = {}
        # A number is used once, also if its `spawn` is refused or interrupted.
        self._numbers = itertools.count()

    def next_pid(self) -> Pid:
        """Returns the number of a new process."""
        return Pid(next(self._numbers))

    def keep(self, name: str, pid: Pid) -> bool:
        """Gives a process its name. Returns whether the name was free."""
        return self._pids.setdefault(name, pid) is pid

    def drop(self, name: str) -> None:
        """Frees a name whose `spawn` was refused."""
        self._pids.pop(name, None)

    def known(self) -> list[str]:
        """Returns the names that were given."""
        return list(self._pids)

    def pid(self, name: str) -> Pid | None:
        """Returns the process with this name."""
        return self._pids.get(name)


def never_spawned(line: str, name: str) -> Fault:
    return fault(line, NO_PROCESS, name + NEVER_SPAWNED)


def already_spawned(line: str, name: str) -> Fault:
    return fault(line, BADARG, name + ALREADY_SPAWNED)


class Request:
    """A line of the script language as a packet. There is no packet if the answer is known without the program."""

    def __init__(self, text: str, names: Names):
        self.text, self.packet, self._names = text, b"", names
        self._refusal: Fault | None = None
        self._spawned = ""
        try:
            self._begin(read_line(text))
        except Misread as misread:
            self._refusal = fault(text, SYNTAX, misread.reason, misread.at)

    def _begin(self, line: Line) -> None:
        pid = self._names.pid(line.process)
        if line.call == "spawn" and line.terms is None:
            self._begin_spawn(line.process)
        elif not pid:
            self._refusal = never_spawned(self.text, line.process)
        elif line.terms is None:
            self.packet = packet(EXIT, pid.number)
        else:
            call = calling.encoded(line.call, line.terms)
            if fits(call):
                self.packet = packet(CALL, pid.number, call)
            else:
                self._refusal = too_long(self.text, call)

    def _begin_spawn(self, name: str) -> None:
        pid = None if self._names.pid(name) else self._names.next_pid()
        if pid and self._names.keep(name, pid):
            self._spawned, self.packet = name, packet(SPAWN, pid.number)
        else:
            self._refusal = already_spawned(self.text, name)

    def result(self, body: bytes | None, ended: str) -> Any:
        """Returns the reply or the Fault of the line. `body` is that of its packet, or None; `ended` says why there is
        none."""
        if self._refusal:
            return self._refusal
        result = gone(self.text, ended) if body is None else result_of(body, str, self.text)
        if self._spawned and isinstance(result, Fault):
            self._names.drop(self._spawned)
        return result
