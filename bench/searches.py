"""What scripts.py asks of a filled table: lookups, passes over all objects, shapes of objects."""

import random
from dataclasses import dataclass
from typing import Callable, Iterator

from workloads import mixed, table


@dataclass(frozen=True)
class Search:
    """A call that looks at all objects of a filled table."""

    name: str
    short: str  # its name in peers/ets_calls.erl
    call: str
    passes: int  # how often it is asked of one table


def singly(count: int) -> list[str]:
    """Objects {K,V} with V = 3 K, one a line."""
    return table() + [f"p insert(t,{{{k},{3 * k}}})" for k in mixed(count)]


def by_lists(count: int) -> list[str]:
    """The same objects in the same order, a hundred a line."""
    numbers = mixed(count)
    rows = (numbers[i : i + 100] for i in range(0, count, 100))
    return table() + [
        "p insert(t,[" + ",".join(f"{{{k},{3 * k}}}" for k in row) + "])" for row in rows
    ]


def lookups(count: int, lines: int) -> list[str]:
    """Lookups in a table of this many objects, in an order that has nothing to do with that of the
    insertions."""
    chance = random.Random(lines)
    return [f"p lookup(t,{chance.randrange(count)})" for _ in range(lines)]


def rounds(keys: list[int], is_fixed: bool) -> list[str]:
    """Deletions of these keys, each in a table that is fixed for it alone, or between two calls
    that fix nothing."""
    before, after = (
        ("safe_fixtable(t,true)", "safe_fixtable(t,false)")
        if is_fixed
        else ("member(t,none)", "member(t,none)")
    )
    return [line for k in keys for line in (f"p {before}", f"p delete(t,{k})", f"p {after}")]


def searches(count: int) -> list[Search]:
    value = count // 2 * 3
    return [
        Search(
            "select, a guard true of one",
            "select_one",
            f"p select(t,[{{{{'$1','$2'}},[{{'=:=','$2',{value}}}],['$1']}}])",
            10,
        ),
        Search("match of a value", "match", f"p match(t,{{'$1',{value}}})", 10),
        Search(
            "select_count of half",
            "select_count",
            f"p select_count(t,[{{{{'_','$1'}},[{{'>','$1',{value}}}],[true]}}])",
            10,
        ),
        Search("select of all", "select_all", "p select(t,[{{'_','$1'},[],['$1']}])", 2),
        Search("tab2list", "tab2list", "p tab2list(t)", 2),
        Search(
            "select_delete of half",
            "select_delete",
            f"p select_delete(t,[{{{{'_','$1'}},[{{'>','$1',{value}}}],[true]}}])",
            1,
        ),
    ]


@dataclass(frozen=True)
class Shape:
    """Objects of one shape, one a line, for what they take in memory."""

    name: str
    short: str  # its name in peers/ets_calls.erl
    options: str
    object: Callable[[int], str]

    def lines(self, count: int) -> Iterator[str]:
        yield from table(self.options)
        for i in mixed(count):
            yield f"p insert(t,{self.object(i)})"


TEN_BYTES = "<<" + ",".join(map(str, range(10))) + ">>"

SHAPES = [
    Shape("{Int,Int}", "pair", "", lambda i: f"{{{i},{i * 3}}}"),
    Shape("{Atom,Binary of 10 bytes}", "atom", "", lambda i: f"{{k{i},{TEN_BYTES}}}"),
    Shape("{Int,{Int,Int,Int}}", "nested", "", lambda i: f"{{{i},{{{i},{i * 3},7}}}}"),
    Shape("{Int,Int} in a bag, 100 a key", "bag", ",bag", lambda i: f"{{{i // 100},{i}}}"),
]
