"""Reads lines of the script language into calls with terms. docs/script.md has the rules."""

from __future__ import annotations

import re
from dataclasses import dataclass

from .reasons import Reason
from .terms import GREATEST, LEAST, Atom, Pid, Term, Tid

DEEPEST, LONGEST = 128, 255
NOT_A_LINE = Reason.NOT_A_LINE.value
_BLANKS, _MORE_BLANKS = re.compile(r"[ \t]*").match, re.compile(r"[ \t]+").match
_NAME = re.compile(r"[a-z][A-Za-z0-9_@]*").match
_DIGITS = re.compile(r"-?[0-9]+").match
# The characters of a quoted atom and of a string, up to the first that cannot be one.
_QUOTED = {"'": re.compile(r"(?:[ -&(-\[\]-~]|\\['\\])*").match, '"': re.compile(r'(?:[ !#-\[\]-~]|\\["\\])*').match}


class Misread(Exception):
    """A line that is not in the language. `at` is its first byte after which no line is possible."""

    def __init__(self, at: int, reason: str):
        super().__init__(at, reason)
        self.at, self.reason = at, reason


@dataclass(frozen=True, slots=True)
class Line:
    """A line: `spawn` or `exit` with the name of a process, or a call of a process with its terms."""

    process: str
    call: str
    terms: list[Term] | None


def read_line(line: str) -> Line:
    """Returns what a line says. Raises Misread."""
    return _Reader(line).line()


class _Reader:
    """Reads a line from its first byte to its last."""

    def __init__(self, line: str):
        self._line, self._at = line, 0

    def line(self) -> Line:
        self._skip_blanks()
        first = self._name()
        blanks = _MORE_BLANKS(self._line, self._at)
        if not blanks:
            raise self._fault()
        self._at = blanks.end()
        if first in ("grow", "ready"):
            raise Misread(len(self._line), NOT_A_LINE)
        second = self._name()
        self._skip_blanks()
        if first in ("spawn", "exit"):
            self._end()
            return Line(second, first, None)
        terms = self._terms("(", ")")
        self._skip_blanks()
        self._end()
        return Line(first, second, terms)

    def _terms(self, opening: str, closing: str) -> list[Term]:
        """Reads the arguments of a call. Keeps the tuples and lists that are begun in a list, so depth needs no
        recursion."""
        self._take(opening)
        begun: list[tuple[list[Term], str]] = []
        terms: list[Term] = []
        while True:
            self._skip_blanks()
            sign = self._line[self._at : self._at + 1]
            if len(begun) == DEEPEST and sign != closing:
                raise Misread(self._at, Reason.TOO_DEEP.value)
            if sign in ("{", "["):
                self._at += 1
                begun.append((terms, closing))
                terms, closing = [], "}" if sign == "{" else "]"
                continue
            if sign != closing or terms:
                terms.append(self._leaf(len(begun)))
                self._skip_blanks()
            while self._line[self._at : self._at + 1] == closing:
                self._at += 1
                if not begun:
                    return terms
                ended: Term = tuple(terms) if closing == "}" else terms
                terms, closing = begun.pop()
                terms.append(ended)
                self._skip_blanks()
            self._take(",")

    def _leaf(self, levels: int) -> Term:
        """Reads a term without brackets, inside of this many levels."""
        sign = self._line[self._at : self._at + 1]
        if sign == "-" or sign.isdigit():
            return self._number(LEAST, GREATEST)
        if sign == "'":
            return Atom(self._quoted("'", LONGEST))
        if sign == '"':
            start, text = self._at, self._quoted('"')
            if text and levels + 1 == DEEPEST:
                raise Misread(start + 1, Reason.TOO_DEEP.value)
            return list(text.encode())
        if sign == "#":
            return Tid(self._identifier("#Tid<", ">"))
        if self._line.startswith("<0", self._at):
            return Pid(self._identifier("<0.", ".0>"))
        return self._binary() if sign == "<" else Atom(self._name())

    def _number(self, least: int, greatest: int) -> int:
        start, digits = self._at, _DIGITS(self._line, self._at)
        if not digits:
            self._at += self._line.startswith("-", self._at)
            raise self._fault()
        self._at = digits.end()
        # Python refuses to read more digits than it has memory for.
        text = digits[0] if len(digits[0]) < 4_000 else "9" * 99
        number = int(text)
        if not least <= number <= greatest:
            raise Misread(start, Reason.INTEGER_RANGE.value)
        return number

    def _quoted(self, quote: str, most: int | None = None) -> str:
        found = _QUOTED[quote](self._line, self._at + 1)
        assert found
        text, is_escape = re.sub(r"\\(.)", r"\1", found[0]), self._line.startswith("\\", found.end())
        if most and len(text) + is_escape > most:
            raise Misread(self._at, Reason.LONG_ATOM.value)
        self._at = found.end() + is_escape
        self._take(quote, found.end() == self._at)
        return text

    def _identifier(self, head: str, tail: str) -> int:
        self._word(head)
        if not self._line[self._at : self._at + 1].isdigit():
            raise self._fault()
        number = self._number(0, 2**32 - 1)
        self._word(tail)
        return number

    def _binary(self) -> bytes:
        self._word("<<")
        self._skip_blanks()
        content = b""
        if self._line.startswith('"', self._at):
            content = self._quoted('"').encode()
        elif not self._line.startswith(">", self._at):
            content = bytes(self._bytes())
        self._skip_blanks()
        self._word(">>")
        return content

    def _bytes(self) -> list[int]:
        found = []
        while True:
            self._skip_blanks()
            if not self._line[self._at : self._at + 1].isdigit():
                raise self._fault()
            found.append(self._number(0, 255))
            self._skip_blanks()
            if not self._line.startswith(",", self._at):
                return found
            self._at += 1

    def _name(self) -> str:
        name = _NAME(self._line, self._at)
        if not name:
            raise self._fault()
        if len(name[0]) > LONGEST:
            raise Misread(self._at, Reason.LONG_ATOM.value)
        self._at = name.end()
        return name[0]

    def _word(self, word: str) -> None:
        for sign in word:
            self._take(sign)

    def _take(self, sign: str, is_possible: bool = True) -> None:
        if not is_possible or not self._line.startswith(sign, self._at):
            raise self._fault()
        self._at += 1

    def _skip_blanks(self) -> None:
        blanks = _BLANKS(self._line, self._at)
        self._at = blanks.end() if blanks else self._at

    def _end(self) -> None:
        if self._at < len(self._line):
            raise self._fault()

    def _fault(self) -> Misread:
        sign = self._line[self._at : self._at + 1]
        return Misread(self._at, f"{Reason.UNEXPECTED.value}{sign!r}" if sign else "unexpected end of line")
