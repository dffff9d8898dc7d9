"""Options of calls as Python values, and replies that are a bool."""

from __future__ import annotations

from collections.abc import Sequence
from typing import Any, Literal, Protocol

from .terms import ABSENT, FALSE, TRUE, Absent, Atom, Pid, Term

TableType = Literal["set", "bag", "duplicate_bag"]
Protection = Literal["public", "protected", "private"]


class Identified(Protocol):
    """What has a pid: a Process, also one of asyncio."""

    pid: Pid


# The heir of a table: a process or its pid, and what its message has.
Heir = tuple[Pid | Identified, Term]

_NO_HEIR = (Atom("heir"), Atom("none"))
# The items of `info` whose values are `true` or `false`.
_BOOLEANS = ("fixed", "named_table", Atom("fixed"), Atom("named_table"))


def new_options(listed: Term | None, words: Sequence[str | None], keypos: int | None, heir: Heir | None) -> Term:
    """Returns the options of `new`: those of the list, then the keywords, which override them. Some are a word alone."""
    made: list[Term] = [Atom(it) for it in words if it is not None]
    made += [(Atom("keypos"), keypos)] if keypos is not None else []
    made += [_option_of(heir)] if heir is not None else []
    return _joined(listed, made)


def heir_options(listed: Term | None, heir: Heir | None | Absent) -> Term:
    """Returns the options of `setopts`: those of the list, then the heir, which overrides them. None is no heir."""
    if heir is ABSENT:
        return _joined(listed, [])
    return _joined(listed, [_NO_HEIR if heir is None else _option_of(heir)])


def _option_of(heir: Heir) -> Term:
    """Returns an heir as an option."""
    return (Atom("heir"), *(getattr(it, "pid", it) for it in heir[:1]), *heir[1:])


def _joined(listed: Term | None, made: list[Term]) -> Term:
    if listed is None or not made:
        return made if listed is None else listed
    # The options of `setopts` may be one option in place of a list.
    return [*(listed if isinstance(listed, list) else [listed]), *made]


def atom_of(value: Term) -> Term:
    """Returns a term, where True and False are the atoms `true` and `false`."""
    if isinstance(value, bool):
        return TRUE if value else FALSE
    return value


def is_boolean(item: Term | str) -> bool:
    """Returns whether the value of an item of `info` is `true` or `false`."""
    return item in _BOOLEANS


def as_bool(reply: Any) -> Any:
    """Returns True or False for the atoms `true` and `false`, and any other reply as it is."""
    return reply == TRUE if reply in (TRUE, FALSE) else reply
