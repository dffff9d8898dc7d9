"""Makes calls of a store in this process, in Erlang's External Term Format."""

from __future__ import annotations

import contextlib
import ctypes
import importlib
import os
from collections.abc import Callable, Sequence
from ctypes import byref, c_size_t, c_void_p
from threading import Lock
from typing import Any

from .decoding import decode
from .external import encode_call
from .faults import GONE, VALUE, line_of_terms
from .terms import Term

# The extension, or None if it was not built, or for another Python.
extension: Any = None
with contextlib.suppress(ImportError):
    extension = importlib.import_module("yoyoash._external")


class Handle(ctypes.Structure):
    """yoyoash_store: 16 bytes that only the library reads. Zeros are a closed store."""

    _fields_ = [("opaque", c_void_p * 2)]


class Sizes(dict[int, Any]):
    """Sizes as the library's functions take them. Small ones are kept."""

    def __missing__(self, size: int) -> Any:
        return c_size_t.from_param(size)


SIZES = Sizes({size: c_size_t.from_param(size) for size in range(1_024)})


class Buffer:
    """What the library writes: bytes, and the length of all that it has. Pointers and sizes are made once, since ctypes
    takes long for them."""

    def __init__(self, size: int):
        self.bytes, self.size, self.length = ctypes.create_string_buffer(size), size, c_size_t()
        self.words = byref(self.bytes), SIZES[size], byref(self.length)

    def read(self) -> bytes:
        """Returns what was written."""
        written: Any = self.bytes[: self.length.value]
        return bytes(written)


def encoded(name: str, terms: Sequence[Term]) -> bytes:
    """Returns the bytes of a call, `{Name,Arguments}`. Raises as `spell` does."""
    return (extension and extension.encode_call(name, *terms)) or encode_call(name, terms)


def decoded(data: bytes) -> Term:
    """Returns the term of a reply."""
    term = extension and extension.decode(data)
    return decode(data) if term is None else term


def line_of_call(process: str, call: bytes) -> str:
    """Returns the line of a process's call with these bytes."""
    found: Any = decode(call)
    return line_of_terms(process, found[0].text, found[1])


def caller(library: ctypes.CDLL, handle: Handle) -> tuple[Any, Any]:
    """Returns what makes calls of a store, and the lock of the store. Both locks are made in C: if the lock were a Python
    method `__enter__`, an interrupt inside of it would leave the lock held."""
    if not extension:
        plain = Caller(library, handle)
        return plain, plain.lock
    functions = library.yoyoash_call_external, library.yoyoash_reply_external, library.yoyoash_why
    made = extension.Caller(handle, ctypes.addressof(handle), *[ctypes.cast(it, c_void_p).value for it in functions])
    return made, made


class Caller:
    """Makes calls by ctypes. The extension has the same in C."""

    def __init__(self, library: ctypes.CDLL, handle: Handle):
        # No `argtypes` are set: ctypes would convert every argument at every call.
        self._store, self.lock, self._owner = byref(handle), Lock(), os.getpid()
        self._do, self._again, self._why = library.yoyoash_call_external, library.yoyoash_reply_external, library.yoyoash_why
        self._buffer, self._reason = Buffer(4_096), Buffer(256)
        self._words, self._length = self._buffer.words, self._buffer.length

    def call(self, report: Callable[..., Any], process: str, pid: int, name: str, *terms: Term) -> Any:
        """Makes a call, and returns its reply. Returns what `report` does if there is no reply: that gets the process,
        its number, the name and the terms of the call, the status, the length and the reason."""
        return self._made(report, process, pid, encode_call(name, terms), (name, *terms))

    def send(self, report: Callable[..., Any], process: str, pid: int, call: bytes) -> Any:
        """Makes the call of these bytes. `report` gets them instead of the name and the terms."""
        return self._made(report, process, pid, call, call)

    def _made(self, report: Callable[..., Any], process: str, pid: int, data: bytes, call: Any) -> Any:
        why, size, buffer = None, SIZES[len(data)], self._buffer
        if self._owner != os.getpid():
            return report(process, pid, call, GONE, 0, None)
        with self.lock:
            status = self._do(self._store, pid, data, size, *self._words)
            length = self._length.value
            if status == VALUE and length > buffer.size:
                buffer = Buffer(length)
                status = self._again(self._store, *buffer.words)
            if status == VALUE:
                reply: Any = buffer.bytes[:length]
            elif self._why(self._store, *self._reason.words) == VALUE:
                why = self._reason.read().decode()
        return report(process, pid, call, status, length, why) if status else decode(reply)
