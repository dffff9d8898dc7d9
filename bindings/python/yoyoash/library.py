"""A store in this process: the library libyoyoash.so, loaded by ctypes. docs/c.md describes its functions."""

from __future__ import annotations

import ctypes
import os
import re
from collections.abc import Callable, Sequence
from ctypes import byref, c_uint32, c_uint64
from functools import partial
from typing import Any

from . import calling, finding, forking
from .calling import SIZES, Buffer, Handle
from .decoding import decode
from .faults import CLOSED, FORKED, GONE, SYNTAX, VALUE, Fault, fault, line_of_terms, raised
from .packets import Names, already_spawned, never_spawned
from .reading import parse
from .script import NOT_A_LINE, Misread, read_line
from .terms import Pid, Term, spell, spell_all

FUNCTIONS = ("open_with_seed", "spawn", "exit", "call", "reply", "call_external", "reply_external", "why", "close")
_LINE = re.compile(r"[ \t]*([a-z][A-Za-z0-9_@]*)[ \t]+([a-z][A-Za-z0-9_@]*)[ \t]*(?:\((.*)\)[ \t]*)?")


def _load(path: str) -> ctypes.CDLL:
    """Loads the library. Raises Unavailable if that fails or a function is missing."""
    try:
        loaded = ctypes.CDLL(path)
    except OSError as error:
        raise finding.unavailable(path, "YOYOASH_LIBRARY", error) from None
    for name in FUNCTIONS:
        if not hasattr(loaded, f"yoyoash_{name}"):
            export = "export YOYOASH_LIBRARY=/path/to/libyoyoash.so"
            raise finding.Unavailable(f"{path} has no function yoyoash_{name}, so it is another library or an older one: {export}")
    return loaded


class Library:
    """A store of its own. Threads may share it: one call runs at a time."""

    def __init__(self, path: finding.Path | None, settings: finding.Settings):
        sizes = [c_uint32(it) for it in settings.limits().values()]
        seed = c_uint64(int.from_bytes(os.urandom(8), "little") if settings.seed is None else settings.seed)
        self._library, self._handle, self._buffer = _load(finding.library(path)), Handle(), Buffer(4_096)
        self._library.yoyoash_close.restype = None
        self._store, self._do = byref(self._handle), self._library.yoyoash_call
        # Calls with terms go through this.
        self._caller, self._lock = calling.caller(self._library, self._handle)
        self._names, self._owner = Names(), os.getpid()
        # Why no more calls are made; empty while the store is open.
        self.ended, self.is_closed = "", False
        if self._library.yoyoash_open_with_seed(self._store, *sizes, seed) != VALUE:
            raise MemoryError("out of memory: the store was not opened")
        forking.hold(self)

    def call(self, process: str, pid: Pid, name: str, arguments: str, offset: int | None = None) -> str | Fault:
        """Returns the text of the reply to a process's call, or its Fault. `offset` is where the arguments begin in their
        line, if that is not the usual place."""
        text = (f"{{{name},{arguments}}}" if arguments else f"{{{name}}}").encode()
        size, why = SIZES[len(text)], None
        if self._is_forked():
            return self._fault(f"{process} {name}({arguments})", GONE, None)
        with self._lock:
            status = self._do(self._store, pid.number, text, size, *self._buffer.words)
            length = self._buffer.length.value
            if not status:
                if length <= self._buffer.size:
                    return self._buffer.read().decode()
                status, reply = self._long_text(length)
                if not status:
                    return reply
            why = self._why()
        at = None
        if status == SYNTAX:
            begin = len(process) + len(name) + 2 if offset is None else offset
            at = min(max(length - len(name) - 2, 0), len(arguments)) + begin
        return self._fault(f"{process} {name}({arguments})", status, why, at)

    def asker(self, process: str, pid: Pid) -> Callable[..., Any]:
        """Returns a function that makes calls of a process, each a name and terms. It returns the reply or raises a
        Fault."""
        return partial(self._caller.call, self._raised, process, pid.number)

    def collected(self, name: str, terms: Sequence[Term]) -> bytes:
        """Returns what `results` takes of a call."""
        return calling.encoded(name, terms)

    def results(self, process: str, pid: Pid, calls: Sequence[bytes]) -> list[Any]:
        """Makes calls. Returns a reply or a Fault for each."""
        return [self._caller.send(self._result, process, pid.number, call) for call in calls]

    def ask_all(self, lines: Sequence[str]) -> list[Any]:
        """Makes the calls of lines of the script language. Returns a reply or a Fault for each."""
        results = [self.text_of(line) for line in lines]
        return [parse(it) if isinstance(it, str) else it for it in results]

    def names(self) -> list[str]:
        """Returns the names of the processes that lines spawned, ended ones included."""
        return self._names.known()

    def close(self) -> None:
        """Ends the store and frees its memory. Closing again does nothing."""
        if self._is_forked():
            return
        with self._lock:
            self.ended, self.is_closed = CLOSED, True
            self._library.yoyoash_close(self._store)

    def abandon(self) -> None:
        """Gives the store up, in a forked child."""
        self.ended, self.is_closed = FORKED, True

    def _is_forked(self) -> bool:
        """Returns whether the store belongs to another process, which forked this one."""
        if self._owner != os.getpid():
            self.abandon()
        return self.ended == FORKED

    def _raised(self, *refused: Any) -> Any:
        return raised(self._result(*refused))

    def _result(self, process: str, pid: int, call: Any, status: int, length: int, why: str | None) -> Any:
        """Returns the Fault of a call without a reply. `call` is its bytes, or a tuple of its name and its terms. A call that
        is too deep for its bytes is made again by its text."""
        name, terms = _name_and_terms(call)
        if status == SYNTAX:
            reply = self.call(process, Pid(pid), name, spell_all(terms))
            return parse(reply) if isinstance(reply, str) else reply
        return self._fault(line_of_terms(process, name, terms), status, why)

    def _fault(self, line: str, status: int, why: str | None, at: int | None = None) -> Fault:
        """Returns the Fault of a status. A closed store says why it is closed."""
        self._is_forked()
        return fault(line, status, self.ended if status == GONE else why, at)

    def _long_text(self, length: int) -> tuple[int, str]:
        """Reads the last reply again, into a buffer that is long enough. Returns the status and the text."""
        self._buffer = Buffer(length)
        status = self._library.yoyoash_reply(self._store, *self._buffer.words)
        return status, self._buffer.read().decode() if status == VALUE else ""

    def _why(self) -> str | None:
        """Returns why the last call was refused, in words."""
        status = self._library.yoyoash_why(self._store, *self._buffer.words)
        return self._buffer.read().decode() if status == VALUE else None

    def text_of(self, line: str) -> str | Fault:
        """Makes the call of a line of the script language. Returns the text of the reply, or the Fault."""
        parts = _LINE.fullmatch(line) if line.isascii() else None
        if not parts:
            return _misread(line)
        word, call, arguments = parts.groups()
        if arguments is None:
            named = {"spawn": self._spawn, "exit": self._exit}.get(word)
            return named(line, call) if named else _misread(line)
        pid = self._names.pid(word)
        if not pid:
            return never_spawned(line, word)
        reply = self.call(word, pid, call, arguments.strip(" \t") and arguments, parts.start(3))
        if isinstance(reply, Fault):
            reply.line = line
        return reply

    def _spawn(self, line: str, name: str) -> str | Fault:
        if self._is_forked():
            return self._fault(line, GONE, None)
        with self._lock:
            if self._names.pid(name):
                return already_spawned(line, name)
            pid = self._names.next_pid()
            status = self._library.yoyoash_spawn(self._store, pid.number)
            if status == VALUE:
                self._names.keep(name, pid)
                return spell(pid)
            why = self._why()
        return self._fault(line, status, why)

    def _exit(self, line: str, name: str) -> str | Fault:
        pid = self._names.pid(name)
        if self._is_forked():
            return self._fault(line, GONE, None)
        if not pid:
            return never_spawned(line, name)
        with self._lock:
            status = self._library.yoyoash_exit(self._store, pid.number)
            if status == VALUE:
                return "true"
            why = self._why()
        return self._fault(line, status, why)


def _name_and_terms(call: bytes | tuple[Any, ...]) -> tuple[str, Sequence[Term]]:
    """Returns the name and the terms of a call: of its bytes, or of a tuple of them."""
    if isinstance(call, tuple):
        return call[0], call[1:]
    found: Any = decode(call)
    return found[0].text, found[1]


def _misread(line: str) -> Fault:
    """Returns the Fault of a line that is not in the script language."""
    try:
        read_line(line)
    except Misread as misread:
        return fault(line, SYNTAX, misread.reason, misread.at)
    return fault(line, SYNTAX, NOT_A_LINE, len(line))
