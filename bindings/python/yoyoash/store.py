"""A store, its processes, and calls that are sent together."""

from __future__ import annotations

import atexit
import contextlib
import os
import re
import warnings
import weakref
from collections.abc import Iterator, Sequence
from typing import Any

from . import finding
from .calls import Calls, CollectedCalls
from .faults import BadArg, Gone, NoProcess, raised
from .library import Library
from .options import as_bool
from .pipe import Pipe
from .terms import Pid, Table, Term, written
from .traversals import Traversal, keys_of, objects_of

# Holds the stores that exist, for `close_all`.
_stores: weakref.WeakSet[Store] = weakref.WeakSet()
_NAME = re.compile(r"[a-z][A-Za-z0-9_@]{0,254}").fullmatch
_COMMANDS = ("spawn", "exit", "grow", "ready")


class Uncopied:
    """What refuses to be copied and pickled: two objects would be one store, and the end of one would close the other."""

    def __reduce_ex__(self, protocol: Any) -> Any:
        raise TypeError(f"a {type(self).__name__} of yoyoash cannot be copied or pickled")


class Store(Uncopied):
    """A store: in this process, or in a program at the other end of a pipe. Threads may share it, one call at a time."""

    _way: Pipe | Library

    def __init__(
        self,
        *,
        max_processes: int | None = None,
        max_tables: int | None = None,
        max_objects: int | None = None,
        seed: int | None = None,
    ):
        """Opens a store in this process if the library loads, else over a pipe. The limits are the largest if you give none.
        The seed chooses the hash of keys; the default is a number of the system's random numbers."""
        self._begin(_usual_way(finding.Settings(max_processes, max_tables, max_objects, seed)))

    @classmethod
    def in_process(
        cls,
        library: finding.Path | None = None,
        *,
        max_processes: int | None = None,
        max_tables: int | None = None,
        max_objects: int | None = None,
        seed: int | None = None,
    ) -> Store:
        """Opens a store in this process, by libyoyoash.so."""
        return cls._by(Library(library, finding.Settings(max_processes, max_tables, max_objects, seed)))

    @classmethod
    def pipe(
        cls,
        command: finding.Path | Sequence[str] | None = None,
        *,
        max_processes: int | None = None,
        max_tables: int | None = None,
        max_objects: int | None = None,
        seed: int | None = None,
        **options: Any,
    ) -> Store:
        """Starts a program: the path of `ets_script`, or a list of words that starts one with `--external`. Without it the
        package finds the program (docs/python.md). `options` are those of subprocess.Popen."""
        return cls._by(Pipe(command, finding.Settings(max_processes, max_tables, max_objects, seed), options))

    @classmethod
    def _by(cls, way: Pipe | Library) -> Store:
        store = cls.__new__(cls)
        store._begin(way)
        return store

    def _begin(self, way: Pipe | Library) -> None:
        self._way = way
        _stores.add(self)

    def spawn(self, name: str) -> Process:
        """Begins a process with this name: an identity inside the store that owns tables."""
        return Process(self, checked_name(name), self.ask(f"spawn {name}"))

    def ask(self, line: str) -> Any:
        """Returns the reply to a line of the script language, or raises a Fault."""
        (answer,) = self.ask_all([line])
        return raised(answer)

    def ask_all(self, lines: Sequence[str]) -> list[Any]:
        """Returns for each line its reply or its Fault, in order. Over a pipe the lines are sent together."""
        return self._way.ask_all([checked_line(line) for line in lines])

    def close(self) -> None:
        """Ends the store. Closing again does nothing."""
        self._way.close()

    def __enter__(self) -> Store:
        return self

    def __exit__(self, *raised: object) -> None:
        self.close()

    def _drop(self) -> None:
        """Closes a store that its user has not closed, and warns."""
        # There is no `_way` if the store was never opened.
        way = self.__dict__.get("_way")
        if way and not way.is_closed:
            try:
                warnings.warn(f"{self!r} was never closed: use `with`, or call close()", ResourceWarning, source=self)
            finally:
                way.close()

    def __del__(self) -> None:
        self._drop()


@atexit.register
def close_all() -> None:
    """Closes the stores that are still open when Python ends. Python stops daemon threads after this: one that held a
    lock of a store would hold it for ever."""
    with contextlib.ExitStack() as drops:
        for store in _stores:
            drops.callback(store._drop)


def _usual_way(settings: finding.Settings) -> Pipe | Library:
    """Opens a store in this process, or over a pipe if there is no library here. A library that the environment names has to
    load."""
    try:
        return Library(None, settings)
    except finding.Unavailable as unavailable:
        if os.environ.get("YOYOASH_LIBRARY"):
            raise
        without_library = unavailable
    try:
        return Pipe(None, settings, {})
    except finding.Unavailable:
        raise without_library from None


def checked_name(name: str) -> str:
    """Returns the name if a process can have it. Raises a TypeError or a ValueError otherwise."""
    if not isinstance(name, str):
        raise TypeError(f"{written(name)} is not a string: the name of a process is one")
    if not _NAME(name) or name in _COMMANDS:
        rule = f"a lower-case letter, then at most 254 letters, digits, _ and @; and not {', '.join(_COMMANDS)}"
        raise ValueError(f"{written(name)} is not a name of a process: a name is {rule}")
    return name


def checked_line(line: str) -> str:
    """Returns the line if it has exactly one answer. Raises a ValueError otherwise: all later answers would be
    shifted."""
    if not re.fullmatch(r"[ -~\t]+", line) or not line.strip() or line.lstrip().startswith("%"):
        raise ValueError(f"{written(line)} is not a line that has an answer: a line has printable ASCII characters, and is no comment")
    return line


class Process(Uncopied, Calls):
    """A process of the store. Each call of docs/calls.md is a method that returns the reply or raises a Fault."""

    def __init__(self, store: Store, name: str, pid: Pid):
        self.store, self.name, self.pid = store, name, pid
        self._call = store._way.asker(name, pid)

    def exit(self) -> bool:
        """Ends the process. Its tables go to their heirs, or are deleted. Returns True."""
        return bool(self.store.ask(f"exit {self.name}"))

    def __enter__(self) -> Process:
        return self

    def __exit__(self, *raised: object) -> None:
        # A process that has ended, and one of a store that is gone, need no end.
        with contextlib.suppress(NoProcess, Gone):
            self.exit()

    def pipeline(self) -> Pipeline:
        """Returns an empty pipeline, which collects calls and sends them together."""
        return Pipeline(self.store, self.name, self.pid)

    @contextlib.contextmanager
    def fixed(self, table: Table) -> Iterator[Table]:
        """Fixes the table for the time of a `with`, so that a traversal visits each key that stays exactly once."""
        self.safe_fixtable(table, True)
        try:
            yield table
        finally:
            # A table that was deleted, a process that has ended and a store that is gone have no fixes.
            with contextlib.suppress(BadArg, NoProcess, Gone):
                self.safe_fixtable(table, False)

    def walk(self, table: Table) -> Traversal[Any]:
        """Returns an iterator over the keys of the table, which fixes the table. It is a context manager too."""
        return Traversal(keys_of(self, table))

    def objects(self, table: Table) -> Traversal[tuple[Any, ...]]:
        """Returns an iterator over the objects of the table, one key at a time, which fixes the table. It is a context
        manager too."""
        return Traversal(objects_of(self, table))

    def __repr__(self) -> str:
        return f"<process {self.name} {self.pid!r}>"


class Pipeline(Uncopied, CollectedCalls):
    """Collects calls of a process. `run`, or the end of a `with`, sends them. `answers` then has a reply or a Fault
    for each."""

    def __init__(self, store: Store, name: str, pid: Pid):
        self.store, self.name, self.pid = store, name, pid
        self.calls: list[bytes] = []
        self.answers: list[Any] = []
        # The places of the calls whose replies are True or False.
        self._truths: list[int] = []

    def run(self) -> list[Any]:
        """Sends the collected calls. Returns a reply or a Fault for each, in order."""
        calls, truths, self.calls, self._truths = self.calls, self._truths, [], []
        self.answers = self.store._way.results(self.name, self.pid, calls)
        for place in truths:
            self.answers[place] = as_bool(self.answers[place])
        return self.answers

    def _collect(self, call: str, *terms: Term) -> None:
        self.calls.append(self.store._way.collected(call, terms))

    def _collect_truth(self, call: str, *terms: Term) -> None:
        self._collect(call, *terms)
        self._truths.append(len(self.calls) - 1)

    def __enter__(self) -> Pipeline:
        return self

    def __exit__(self, kind: object, *raised: object) -> None:
        if kind is None:
            self.run()
