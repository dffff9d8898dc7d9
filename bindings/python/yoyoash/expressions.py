"""Expressions of match specifications: what the store computes for each object. docs/match-specifications.md has their
values."""

from __future__ import annotations

from collections.abc import Callable
from typing import Any, Literal, Union, get_args

from .terms import FALSE, TRUE, Atom, Term, written

# What an expression is made of: terms, True, False, other expressions, and tuples and lists of these.
Value = Union[Term, "Expression"]
Function = Literal[
    "is_atom", "is_integer", "is_number", "is_list", "is_tuple", "is_binary", "is_pid", "is_reference", "not", "and", "or",
    "xor", "andalso", "orelse", "+", "-", "*", "div", "rem", "abs", "hd", "tl", "length", "element", "size", ">", ">=", "<",
    "=<", "=:=", "==", "=/=", "/=",
]  # fmt: skip
_FUNCTIONS = {name: Atom(name) for name in get_args(Function)}
_CONST, DEEPEST = Atom("const"), 128


class Expression:
    """What a match specification computes for each object. Operators make larger expressions: comparisons, `+`, `-`,
    `*`, and `&`, `|` and `~` for and, or and not."""

    __slots__ = ("term", "numbers")

    def __init__(self, term: Term, numbers: frozenset[int] = frozenset()):
        """Makes an expression of its term in a match specification, and the numbers of its variables."""
        self.term, self.numbers = term, numbers

    def __lt__(self, other: Value) -> Expression:
        return function("<", self, other)

    def __le__(self, other: Value) -> Expression:
        return function("=<", self, other)

    def __gt__(self, other: Value) -> Expression:
        return function(">", self, other)

    def __ge__(self, other: Value) -> Expression:
        return function(">=", self, other)

    def __eq__(self, other: Value) -> Expression:  # type: ignore[override]
        return function("=:=", self, other)

    def __ne__(self, other: Value) -> Expression:  # type: ignore[override]
        return function("=/=", self, other)

    def __add__(self, other: Value) -> Expression:
        return function("+", self, other)

    def __radd__(self, other: Value) -> Expression:
        return function("+", other, self)

    def __sub__(self, other: Value) -> Expression:
        return function("-", self, other)

    def __rsub__(self, other: Value) -> Expression:
        return function("-", other, self)

    def __mul__(self, other: Value) -> Expression:
        return function("*", self, other)

    def __rmul__(self, other: Value) -> Expression:
        return function("*", other, self)

    def __and__(self, other: Value) -> Expression:
        """Returns whether both hold. The second is not computed if the first does not hold."""
        return self._joined("andalso", other)

    def __or__(self, other: Value) -> Expression:
        """Returns whether one holds. The second is not computed if the first holds."""
        return self._joined("orelse", other)

    def __invert__(self) -> Expression:
        return function("not", self)

    def __bool__(self) -> bool:
        why = "an expression is true or false in the store only"
        raise TypeError(f"{why}: write &, | and ~ for and, or and not, and brackets around comparisons")

    def __hash__(self) -> int:
        return id(self)

    def __repr__(self) -> str:
        return f"Expression({written(self.term)})"

    def _joined(self, name: Function, other: Value) -> Expression:
        """Returns one function of all its operands for a chain of it, so that a long chain is not deep."""
        term, numbers = lifted(other)
        begun = self.term if isinstance(self.term, tuple) and self.term[:1] == (_FUNCTIONS[name],) else (_FUNCTIONS[name], self.term)
        return Expression((*begun, term), self.numbers | numbers)


class Variable(Expression):
    """Matches a part of an object in a head, and is its value in conditions and results. Wherever the number appears in
    a head, the part has to be the same. `Variable(1)` is `'$1'`."""

    __slots__ = ("number",)

    def __init__(self, number: int):
        if type(number) is not int or not 0 <= number <= 100_000_000:
            raise ValueError(f"{written(number)} is not the number of a variable: numbers go from 0 to 100000000")
        super().__init__(Atom(f"${number}"), frozenset([number]))
        self.number = number

    def __repr__(self) -> str:
        return f"Variable({self.number})"


# The whole object, and the list of all bindings in the order of the variables' numbers.
OBJECT, BINDINGS = Expression(Atom("$_")), Expression(Atom("$$"))


def function(name: Function, *arguments: Value) -> Expression:
    """Returns a function of docs/match-specifications.md of its arguments, such as `function("is_integer", key)`. Raises a
    ValueError for another name."""
    if name not in _FUNCTIONS:
        raise ValueError(f"{written(name)} is not a function of match specifications")
    terms, numbers = _lifted_all(arguments)
    return Expression((_FUNCTIONS[name], *terms), numbers)


def lifted(value: Value) -> tuple[Term, frozenset[int]]:
    """Returns the term of a value in an expression, and the numbers of the variables in it. Data that would be read as a
    variable or a function is quoted."""
    if isinstance(value, Expression):
        return value.term, value.numbers
    if isinstance(value, bool):
        return (TRUE if value else FALSE), frozenset()
    if isinstance(value, Atom):
        return ((_CONST, value) if value.text.startswith("$") else value), frozenset()
    if not isinstance(value, (tuple, list)):
        return value, frozenset()
    if not contains(value, lambda it: isinstance(it, (Expression, bool))):
        return (_CONST, value), frozenset()
    check_depth(value)
    terms, numbers = _lifted_all(value)
    return ((tuple(terms),) if isinstance(value, tuple) else terms), numbers


def _lifted_all(values: Any) -> tuple[list[Term], frozenset[int]]:
    pairs = [lifted(it) for it in values]
    return [term for term, _ in pairs], frozenset().union(*[numbers for _, numbers in pairs])


def contains(value: Any, is_sought: Callable[[Any], bool]) -> bool:
    """Returns whether a value is, or has at any depth, something that is sought. It looks into tuples and lists, and once
    into each."""
    left, seen = [value], set()
    while left:
        it = left.pop()
        if is_sought(it):
            return True
        if isinstance(it, (tuple, list)) and id(it) not in seen:
            seen.add(id(it))
            left += it
    return False


def check_depth(value: Any) -> None:
    """Raises a ValueError for a value that is deeper than terms may be, or contains itself."""
    level = [value]
    for _ in range(DEEPEST):
        level = list({id(part): part for it in level if isinstance(it, (tuple, list)) for part in it}.values())
    if level:
        raise ValueError(f"{written(value)} has more than {DEEPEST} levels")
