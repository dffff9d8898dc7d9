"""Yoyoash: an in-memory store of Erlang terms. A process makes calls as methods, and replies are Python values.

    from yoyoash import Store

    with Store() as store:
        anna = store.spawn("anna")
        prices = anna.new("prices")
        anna.insert(prices, (b"apple", 30))
        assert anna.lookup(prices, b"apple") == [(b"apple", 30)]

`yoyoash.aio` has the same for asyncio. docs/python.md is the guide."""

from types import ModuleType
from typing import TYPE_CHECKING

from .calls import CALLS
from .clauses import ANY, Clause
from .decoding import decode
from .expressions import BINDINGS, OBJECT, Expression, Variable, function
from .external import encode
from .faults import BadArg, Fault, Gone, NoMemory, NoProcess, Syntax, SystemLimit, TooLong, Untold
from .finding import Unavailable
from .reading import parse
from .reasons import Reason
from .store import Pipeline, Process, Store
from .terms import ABSENT, END_OF_TABLE, FALSE, TRUE, Atom, Pid, Table, Term, Tid, spell
from .traversals import Traversal

if TYPE_CHECKING:
    from . import aio

__version__ = "0.1.0"

__all__ = [
    "ABSENT", "ANY", "Atom", "BINDINGS", "BadArg", "CALLS", "Clause", "END_OF_TABLE", "Expression", "FALSE",
    "Fault", "Gone", "NoMemory", "NoProcess", "OBJECT", "Pid", "Pipeline", "Process", "Reason", "Store", "Syntax",
    "SystemLimit", "TRUE", "Table", "Term", "Tid", "TooLong", "Traversal", "Unavailable", "Untold", "Variable",
    "aio", "decode", "encode", "function", "parse", "spell",
]  # fmt: skip


def __getattr__(name: str) -> ModuleType:
    """Imports `aio` at first use, since asyncio takes longer to import than all the rest."""
    if name == "aio":
        import importlib

        return importlib.import_module("yoyoash.aio")
    raise AttributeError(f"module 'yoyoash' has no attribute {name!r}")
