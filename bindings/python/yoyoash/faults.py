"""The exceptions that calls raise."""

from __future__ import annotations

from collections.abc import Sequence
from typing import Any

from .reasons import Reason, split
from .terms import Term, shortened, spell_all

CLOSED, FORKED = Reason.CLOSED.value, Reason.FORKED.value


class Fault(Exception):
    """A call without a reply. `line` is the call as a line of the script language, `answer` what came back, `reason` why,
    in words, and `code` why, as a Reason to compare. The text of the exception shortens the line."""

    # The code of a fault without a reason in words.
    _silent = Reason.OTHER

    def __init__(self, line: str, answer: str, reason: str | None = None):
        super().__init__(line, answer)
        self.line, self.answer, self.reason = line, answer, reason or None

    @property
    def code(self) -> Reason:
        """Returns the reason to compare: `Reason.OTHER` if this version of the package does not know it."""
        return Reason.of(self.reason) if self.reason else self._silent

    @property
    def argument(self) -> int | None:
        """Returns the number of the argument that the reason is about, from 1, if it is about one."""
        return split(self.reason or "")[0]

    @property
    def remedy(self) -> str | None:
        """Returns what to do about it, if the package knows."""
        return None

    def __str__(self) -> str:
        notes = "; ".join(it for it in (self.reason, self.remedy) if it)
        line = shortened(self.line, max(60, 190 - len(self.answer) - len(notes)))
        return f"{self.answer}: {line}" + (f" ({notes})" if notes else "")

    def __repr__(self) -> str:
        return f"{type(self).__name__}({shortened(self.line)!r}, {self.answer!r})"

    def __reduce__(self) -> tuple[Any, ...]:
        return type(self), (self.line, self.answer, self.reason)


class BadArg(Fault):
    """Refused: the name of the call, an argument or the access is wrong. Nothing has changed."""


class SystemLimit(Fault):
    """Refused: a limit would be exceeded. Nothing has changed."""

    @property
    def remedy(self) -> str | None:
        limit = _LIMITS.get(self.code)
        return f"open the store with a larger {limit}=" if limit else None


_LIMITS = {Reason.PROCESS_LIMIT: "max_processes", Reason.TABLE_LIMIT: "max_tables", Reason.OBJECT_LIMIT: "max_objects"}


class NoProcess(Fault):
    """Refused: the process has ended. Nothing has changed."""


class NoMemory(Fault):
    """Refused: the store runs out of memory. Nothing has changed."""

    _silent = Reason.OUT_OF_MEMORY


class Syntax(Fault):
    """The line is not a line of the script language, or a term is too deep. `at` is the byte of its first fault, or None if
    that is unknown."""

    @property
    def at(self) -> int | None:
        at = self.answer.rpartition(" ")[2]
        return int(at) if at.isdigit() else None


class TooLong(Fault):
    """The call has more bytes than a program at the other end of a pipe reads at once. It was not sent."""

    @property
    def remedy(self) -> str | None:
        return "make several calls of it"


class Untold(Fault):
    """The call was done, but there was no memory for its reply."""

    _silent = Reason.OUT_OF_MEMORY


class Gone(Fault):
    """The program has ended or was interrupted, so it is unknown if the call was done; or the store is closed, or this
    process was forked after it was opened."""

    @property
    def remedy(self) -> str | None:
        return "open a new Store"


# What a call without a reply has as its `answer`, by its status, and its exception. docs/c.md has the statuses.
VALUE, BADARG, NO_PROCESS, SYNTAX, GONE = 0, 1, 3, 5, 6
ANSWERS: dict[int, tuple[str, type[Fault]]] = {
    BADARG: ("badarg", BadArg),
    2: ("system_limit", SystemLimit),
    NO_PROCESS: ("noproc", NoProcess),
    4: ("nomem", NoMemory),
    SYNTAX: ("syntax", Syntax),
    GONE: ("gone", Gone),
    7: ("untold", Untold),
}


def fault(line: str, status: int, reason: str | None, at: int | None = None) -> Fault:
    """Returns the exception of a line by its status. `at` is the byte of its first fault, if that is known."""
    answer, kind = ANSWERS[status]
    return kind(line, answer if at is None else f"{answer} {at}", reason)


def gone(line: str, why: str) -> Gone:
    """Returns the exception of a line that got no answer."""
    return Gone(line, ANSWERS[GONE][0], why)


def line_of(process: str, name: str, arguments: str) -> str:
    """Returns the line of a process's call."""
    return f"{process} {name}({arguments})"


def line_of_terms(process: str, name: str, terms: Sequence[Term]) -> str:
    """Returns the line of a process's call with these terms."""
    return line_of(process, name, spell_all(terms))


def raised(result: Any) -> Any:
    """Returns a reply, and raises a Fault."""
    if isinstance(result, Fault):
        raise result
    return result
