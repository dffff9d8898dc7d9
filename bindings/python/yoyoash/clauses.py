"""Match specifications of Python values. No data in them can become a variable or a function."""

from __future__ import annotations

import re
from typing import Any, Final, Union, cast

from .expressions import Expression, Value, Variable, check_depth, contains, lifted
from .terms import Atom, Term, written

_is_variable = re.compile(r"\$(0|[1-9][0-9]{0,7}|100000000)", re.ASCII).fullmatch


class Anything:
    """Matches any part of an object, in a head."""

    def __repr__(self) -> str:
        return "ANY"


ANY: Final = Anything()
_ANY = Atom("_")
# The result for which an object is counted or deleted.
ALWAYS = Expression(Atom("true"))


class Clause:
    """A clause of a match specification: a head, conditions that all have to hold, and a result for each object that
    matches. Without a result, `select` returns the objects, `select_count` counts and `select_delete` deletes them."""

    def __init__(self, head: Any, *conditions: Expression, result: Value | None = None):
        """`head` is a tuple like an object, or ANY, with ANY and variables for its parts. Raises a ValueError for a variable
        that the head does not have, and for an atom in the head that the store would take for ANY or a variable. Raises
        a TypeError for a condition that is a value of Python: it would hold for all objects, or for none."""
        self.head, bound = _head(head)
        for it in conditions:
            if not isinstance(it, Expression):
                raise TypeError(f"{written(it)} is not a condition: a condition has a variable of the head")
        self.conditions: list[Term] = [it.term for it in conditions]
        self.result: Term | None = None
        numbers: frozenset[int] = frozenset()
        if result is not None:
            self.result, numbers = lifted(result)
        for number in numbers.union(*[it.numbers for it in conditions]) - bound:
            raise ValueError(f"Variable({number}) is not in the head {written(head)}")

    def term(self, usual: Expression) -> Term:
        """Returns the clause as a term, with this result if it has no other."""
        return (self.head, self.conditions, [usual.term if self.result is None else self.result])

    def __repr__(self) -> str:
        return f"<clause {written(self.head)} {written(self.conditions)}>"


# What a search takes: a pattern as a term, with ANY and variables or without, and a match specification.
Pattern = Union[Term, Anything, Variable]
Spec = Union[Term, Clause]


def spec_of(spec: Spec, usual: Expression) -> Term:
    """Returns a match specification as a term: of a clause, or a list that has clauses. Any other value is one already."""
    if isinstance(spec, Clause):
        return [spec.term(usual)]
    if isinstance(spec, list):
        return [it.term(usual) if isinstance(it, Clause) else it for it in spec]
    return spec


def pattern_of(pattern: Pattern) -> Term:
    """Returns a pattern as a term. One without ANY and variables is a term already."""
    if contains(pattern, lambda it: isinstance(it, (Anything, Expression))):
        return _head(pattern)[0]
    return cast(Term, pattern)


def _head(head: Any) -> tuple[Term, frozenset[int]]:
    """Returns a head as a term, and the numbers of its variables."""
    check_depth(head)
    numbers: set[int] = set()
    return _part(head, numbers), frozenset(numbers)


def _part(part: Any, numbers: set[int]) -> Term:
    if isinstance(part, tuple):
        return tuple([_part(it, numbers) for it in part])
    if isinstance(part, list):
        return [_part(it, numbers) for it in part]
    if isinstance(part, Variable):
        numbers.add(part.number)
        return part.term
    if isinstance(part, Anything):
        return _ANY
    if isinstance(part, Expression):
        raise ValueError(f"{written(part)} is in a head: only variables and ANY are, and conditions compare")
    if isinstance(part, Atom) and (part == _ANY or _is_variable(part.text)):
        raise ValueError(f"{written(part)} in a head would match other terms: write ANY, or a variable and a condition")
    return cast(Term, part)
