#!/usr/bin/env python3
"""Writes yoyoash/calls.py from the tables of docs/calls.md whose first column is `Call`: each call becomes a method
with its own parameters. A test compares the committed module with what this makes.

    python3 bindings/python/generate.py"""

import pathlib
import re
import textwrap

HERE = pathlib.Path(__file__).resolve().parent
PAGE = HERE.parents[1] / "docs/calls.md"
MODULE = HERE / "yoyoash/calls.py"

# The parameters of the page as Python names and types. Another one becomes its lower-case name and a Term.
PARAMETERS = {
    "T": ("table", "Table"),
    "Name": ("name", "Atom | str"),
    "Pos": ("pos", "int"),
    "Pid": ("pid", "Pid"),
    "Item": ("item", "Atom | str"),
    "Fix": ("fix", "bool | Atom"),
    "Object": ("object", "tuple[Any, ...]"),
    "Objects": ("objects", "tuple[Any, ...] | list[Any]"),
    "Options": ("options", "Term | None = None"),
    "Pattern": ("pattern", "Pattern"),
    "Spec": ("spec", "Spec"),
}
# What a parameter is sent as, by its Python name, or its name and its call. Any other is sent as it is.
SENT = {
    **{name: f"Atom({name}) if isinstance({name}, str) else {name}" for name in ("table", "name", "item")},
    "fix": "atom_of(fix)",
    "pattern": "pattern_of(pattern)",
    "select spec": "spec_of(spec, OBJECT)",
    "select_count spec": "spec_of(spec, ALWAYS)",
    "select_delete spec": "spec_of(spec, ALWAYS)",
    "new options": 'new_options(options, (type, protection, "named_table" if named else None), keypos, heir)',
    "setopts options": "heir_options(options, heir)",
}
# Options by keyword, and what a docstring says of them.
KEYWORDS = {
    "new": (
        [
            "type: TableType | None = None",
            "protection: Protection | None = None",
            "named: bool = False",
            "keypos: int | None = None",
            "heir: Heir | None = None",
        ],
        "The options are a list of terms, or keywords, which override the list.",
    ),
    "setopts": (["heir: Heir | None | Absent = ABSENT"], "The heir is an option as a term or by keyword. None is no heir."),
}
# The types of the replies. Another call replies with Any.
REPLIES = {
    "bool": "insert insert_new member delete delete_object delete_all_objects update_element match_delete safe_fixtable "
    "give_away setopts",
    "Tid | Atom": "new whereis",
    "int": "select_count select_delete",
    "list[Any]": "match select",
    "list[tuple[Any, ...]]": "lookup take tab2list match_object receive",
}
TYPE_OF = {name: kind for kind, names in REPLIES.items() for name in names.split()}

HEAD = '''"""The calls of docs/calls.md as methods. Made by generate.py: do not edit."""

from __future__ import annotations

from collections.abc import Awaitable, Callable
from typing import Any

from .clauses import ALWAYS, Pattern, Spec, pattern_of, spec_of
from .expressions import OBJECT
from .options import Heir, Protection, TableType, as_bool, atom_of, heir_options, is_boolean, new_options
from .terms import ABSENT, Absent, Atom, Pid, Table, Term, Tid

'''
ABOUT = {
    "Calls": "Calls whose method returns the reply or raises a Fault.",
    "CollectedCalls": "Calls whose method collects the call and returns nothing.",
    "AwaitedCalls": "Calls whose method is awaited: it returns the reply or raises a Fault.",
}
# What a class that inherits the methods has: what makes or collects a call of a name and terms.
HOOKS = {
    "Calls": ["_call: Callable[..., Any]"],
    "CollectedCalls": ["_collect: Callable[..., None]", "_collect_truth: Callable[..., None]"],
    "AwaitedCalls": ["_call: Callable[..., Awaitable[Any]]"],
}
WIDEST = 120


def calls_of(page):
    """Returns for each name its forms: pairs of the parameters and what it does, shortest first."""
    calls, in_table = {}, False
    for line in page.splitlines():
        cells = [cell.strip() for cell in re.split(r"(?<!\\)\|", line)[1:-1]] if line.startswith("|") else []
        in_table = bool(cells) and (in_table or cells[0] == "Call")
        for name, parameters in re.findall(r"`([a-z0-9_]+)\(([^`]*)\)`", cells[0]) if in_table else []:
            names = [it for it in parameters.replace(" ", "").split(",") if it]
            calls.setdefault(name, []).append((names, plain(cells[-1])))
    return {name: sorted(forms, key=lambda it: len(it[0])) for name, forms in calls.items()}


def plain(cell):
    """Returns the text of a cell without links and escapes."""
    return re.sub(r"\[([^]]*)\]\([^)]*\)", r"\1", cell).replace("\\|", "|").replace("\\", "\\\\")


def named(parameter):
    """Returns the Python name and type of a parameter."""
    return PARAMETERS.get(parameter, (parameter.lower(), "Term"))


def method_of(name, forms, kind):
    """Yields the lines of a method. A parameter that the shortest form lacks has a default."""
    shortest, longest = forms[0][0], forms[-1][0]
    if any(it != longest[: len(it)] for it, _ in forms) or len(longest) - len(shortest) > 1:
        raise SystemExit(f"generate.py: the forms of {name} are not each other's beginnings")
    pairs = [named(it) for it in longest]
    parts = ["self", *(f"{it}: {kind}" for it, kind in pairs)]
    if len(longest) > len(shortest):
        parts[-1] += " | Absent = ABSENT"
    parts += ["*", *KEYWORDS[name][0]] if name in KEYWORDS else []
    yield from signature(name, parts, kind)
    yield from documented(name, forms)
    terms = [SENT.get(f"{name} {it}") or SENT.get(it) or it for it, _ in pairs]
    if len(longest) > len(shortest):
        yield f"        if {pairs[-1][0]} is not ABSENT:"
        yield from body(name, terms, kind, 12)
        if kind == "CollectedCalls":
            yield "            return"
        terms.pop()
    yield from body(name, terms, kind, 8)


def signature(name, parts, kind):
    """Returns the lines with which a method begins: one, or one for each parameter if that is too wide."""
    returns = "None" if kind == "CollectedCalls" else TYPE_OF.get(name, "Any")
    head = f"    {'async def' if kind == 'AwaitedCalls' else 'def'} {name}("
    line = f"{head}{', '.join(parts)}) -> {returns}:"
    return [line] if len(line) <= WIDEST else [head, *(f"        {it}," for it in parts), f"    ) -> {returns}:"]


def body(name, terms, kind, indent):
    """Yields the lines that make a call with these terms, or collect it."""
    words, reply = [f'"{name}"', *terms], TYPE_OF.get(name, "Any")
    if kind == "CollectedCalls":
        if name == "info":
            yield f"{' ' * indent}collect = self._collect_truth if is_boolean(item) else self._collect"
        hook = "collect" if name == "info" else "self._collect_truth" if reply == "bool" else "self._collect"
        yield from wrapped(f"{hook}(", words, ")", indent)
        return
    call = "await self._call(" if kind == "AwaitedCalls" else "self._call("
    if reply == "bool":
        yield from wrapped(f"return bool({call}", words, "))", indent)
    elif reply == "Any" and name != "info":
        yield from wrapped(f"return {call}", words, ")", indent)
    else:
        yield from wrapped(f"reply: {reply} = {call}", words, ")", indent)
        yield f"{' ' * indent}return {'as_bool(reply) if is_boolean(item) else reply' if name == 'info' else 'reply'}"


def wrapped(head, words, tail, indent):
    """Returns the lines of a call: one, or one for each argument if that is too wide."""
    margin, line = " " * indent, f"{head}{', '.join(words)}{tail}"
    if indent + len(line) <= WIDEST:
        return [margin + line]
    return [margin + head, *(f"{margin}    {it}," for it in words), margin + tail]


def documented(name, forms):
    """Returns the lines of a docstring: each form and what it does."""
    texts = {}
    for parameters, text in forms:
        texts.setdefault(text, []).append(f"`{name}({','.join(parameters)})`")
    if TYPE_OF.get(name) == "bool":
        texts = {text.replace("`true`", "True").replace("`false`", "False"): spelled for text, spelled in texts.items()}
    texts = [f"Calls {' or '.join(forms)}. {text[0].upper()}{text[1:].rstrip('.')}." for text, forms in texts.items()]
    texts += [KEYWORDS[name][1]] if name in KEYWORDS else []
    wraps = [textwrap.wrap(text, 108, break_long_words=False, break_on_hyphens=False) for text in texts]
    lines = [line for text in wraps for line in [*text, ""]][:-1]
    lines[0] = f'"""{lines[0]}'
    lines[-1] += '"""'
    return [f"        {line}" if line else "" for line in lines]


def module_of(page):
    """Returns the text of the module."""
    calls = calls_of(page)
    unknown = {*TYPE_OF, *KEYWORDS} - set(calls)
    if unknown:
        raise SystemExit(f"generate.py: {PAGE.name} has no call {' '.join(sorted(unknown))}")
    names = textwrap.wrap(" ".join(f'"{name}",' for name in calls), 108)
    lines = ["CALLS = (", *[f"    {line}" for line in names], ")"]
    for kind, about in ABOUT.items():
        lines += ["", "", f"class {kind}:", f'    """{about}"""', ""]
        lines += [f"    {it}" for it in HOOKS[kind]]
        for name, forms in calls.items():
            lines += ["", *method_of(name, forms, kind)]
    return HEAD + "\n".join(lines) + "\n"


if __name__ == "__main__":
    MODULE.write_text(module_of(PAGE.read_text()))
    print(f"wrote {MODULE}")
