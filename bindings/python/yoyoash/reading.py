"""Reads the text of a term, as the store prints it, into a Python value."""

from __future__ import annotations

import re

from .terms import Atom, Pid, Term, Tid

# Matches one pair of integers or plain atoms: the usual reply of a lookup.
_PAIR = re.compile(r"\[\{(-?\w+),(-?\w+)\}\]", re.ASCII).fullmatch
# Finds the tokens: a tuple or list of integers and plain atoms, a bracket, an integer, an atom, a quoted atom, a
# binary, a pid, a table identifier, and any other character.
_TOKENS = re.compile(
    r"(\{[\w@,-]+\}|\[[\w@,-]+\]|[{}\[\]]|-?\d+|[a-z][\w@]*|'[^'\\]*(?:\\.[^'\\]*)*'"
    r"|<<[\d,]*>>|<0\.\d+\.0>|#Tid<\d+>|.),?",
    re.ASCII | re.DOTALL,
).findall
_ATOM = re.compile(r"[a-z][\w@]*", re.ASCII).fullmatch
_NEGATIVE = re.compile(r"-\d+", re.ASCII).fullmatch


def parse(text: str) -> Term:
    """Returns the term with this text, as the store prints it. Raises a ValueError for any other text."""
    try:
        pair = _PAIR(text)
        if pair:
            key, value = pair.groups()
            return [(int(key) if key.isdigit() else _WORDS[key], int(value) if value.isdigit() else _WORDS[value])]
        if text.isdigit() and text.isascii():
            return int(text)
        if text == "[]":
            return []
        return _WORDS[text] if text in _WORDS else _whole(text)
    except (ValueError, IndexError):
        raise ValueError(f"{text[:80]!r} is not the text of a term") from None


def _whole(text: str) -> Term:
    """Reads any term. Keeps the open brackets in a list, so depth needs no recursion."""
    if not text.isascii():
        raise ValueError
    terms: list[Term] = []
    begun: list[tuple[list[Term], str]] = []
    for token in _TOKENS(text):
        if token.isdigit():
            terms.append(int(token))
        elif token in "[{":
            begun.append((terms, token))
            terms = []
        elif token in "]}":
            ended, (terms, opening) = terms, begun.pop()
            if opening + token not in ("[]", "{}"):
                raise ValueError
            terms.append(tuple(ended) if token == "}" else ended)
        elif token[0] in "{[":
            flat = [int(it) if it.isdigit() else _WORDS[it] for it in token[1:-1].split(",")]
            terms.append(tuple(flat) if token[0] == "{" else flat)
        else:
            terms.append(_WORDS[token])
    if begun or len(terms) != 1:
        raise ValueError
    return terms[0]


class _Words(dict[str, Term]):
    """Keeps atoms, pids and table identifiers by their texts, since replies repeat a few of them. Makes other terms
    anew."""

    def __missing__(self, token: str) -> Term:
        if _NEGATIVE(token):
            return int(token)
        if token.startswith("<<"):
            return bytes(map(int, token[2:-2].split(","))) if len(token) > 4 else b""
        if len(self) >= 4_096:
            self.clear()
        term = self[token] = _word(token)
        return term


def _word(token: str) -> Atom | Pid | Tid:
    """Returns the term of a token: an atom, a quoted atom, a pid or a table identifier."""
    if _ATOM(token):
        return Atom(token)
    if len(token) > 1:
        match token[0]:
            case "'":
                return Atom(re.sub(r"\\(.)", r"\1", token[1:-1]) if "\\" in token else token[1:-1])
            case "<":
                return Pid(int(token[3:-3]))
            case "#":
                return Tid(int(token[5:-1]))
    raise ValueError


_WORDS = _Words()
