"""What grows with what, to the limits: ten million objects, a million processes, all tables, and
keys of one hash."""

import itertools
import random
from typing import Callable, Iterable, Iterator

from timing import Talk
from workloads import mixed, table

ASKED = 100_000  # lines after a fill
FEWEST = 1_000  # lines, below which a part is not shown: the way there and back is most of it
AT_ONCE = 500_000  # lines a part of a script
LIMITS = ["--max-objects", "100000000", "--max-processes", "2000000"]

Script = Callable[
    [int], dict[str, Iterable[str]]
]  # the parts of a script of a size, by their names
Figures = dict[str, dict[int, float]]  # nanoseconds a line, by the part and the number


def objects(count: int) -> dict[str, Iterable[str]]:
    """One table of this many objects, put in one by one."""
    chance = random.Random(count)
    return {
        "new": table(),
        "insert": (f"p insert(t,{{{key},{3 * key}}})" for key in mixed(count)),
        "lookup, hit": [f"p lookup(t,{chance.randrange(count)})" for _ in range(ASKED)],
        "lookup, miss": [f"p lookup(t,{count + chance.randrange(count)})" for _ in range(ASKED)],
        "delete": [f"p delete(t,{key})" for key in chance.sample(range(count), min(count, ASKED))],
    }


def processes(count: int) -> dict[str, Iterable[str]]:
    """This many living processes, each of which asks one public table."""
    chance = random.Random(count)
    return {
        "spawn": (f"spawn p{number}" for number in range(count)),
        "new": ["p0 new(t,[named_table,public])", "p0 insert(t,{a,1})"],
        "member": [f"p{chance.randrange(count)} member(t,a)" for _ in range(ASKED)],
        "exit": (f"exit p{number}" for number in mixed(count)),
    }


def tables(count: int) -> dict[str, Iterable[str]]:
    """This many tables, each filled by one list of 64 objects: all of them wait for growth, of
    which a line does two steps."""
    chance, names = random.Random(count), [f"t{number}" for number in range(count)]
    row = ",".join(f"{{{key},{key}}}" for key in range(64))
    any_of = lambda call: [
        f"p {call.format(names[chance.randrange(count)])}" for _ in range(ASKED)
    ]
    return {
        "spawn": ["spawn p"],
        "new": (f"p new({name},[named_table])" for name in names),
        "insert of 64": (f"p insert({name},[{row}])" for name in names),
        "member": any_of("member({},7)"),
        "delete of a table": (f"p delete({name})" for name in names),
    }


def one_hash(count: int) -> dict[str, Iterable[str]]:
    """Keys that all have one hash, so that one bucket has them all."""
    chance = random.Random(count)
    return {
        "new": table(),
        "insert": (f"p insert(t,{{{key},{key}}})" for key in mixed(count)),
        "lookup, hit": [f"p lookup(t,{chance.randrange(count)})" for _ in range(ASKED // 20)],
        "lookup, miss": [
            f"p lookup(t,{count + chance.randrange(count)})" for _ in range(ASKED // 20)
        ],
    }


Title = tuple[str, str]  # of a panel, and of its horizontal axis

# The curves: titles, script, numbers (a quick run takes the first two), and the program's
# arguments.
CURVES: list[tuple[Title, Script, tuple[int, ...], list[str]]] = [
    (
        ("By objects", "objects in the table"),
        objects,
        (1_000, 10_000, 100_000, 1_000_000, 10_000_000),
        [],
    ),
    (("By processes", "living processes"), processes, (1_000, 10_000, 100_000, 1_000_000), []),
    (("By tables with pending growth", "tables"), tables, (1_024, 8_192, 65_536), []),
    (
        ("By keys with one hash", "keys"),
        one_hash,
        (10, 30, 100, 300, 1_000, 3_000),
        ["--hash", "same"],
    ),
]


def parts(lines: Iterable[str]) -> Iterator[list[str]]:
    """A script in parts that fit into memory."""
    lines = iter(lines)
    while part := list(itertools.islice(lines, AT_ONCE)):
        yield part


def measured(
    command: list[str], script: dict[str, Iterable[str]], figures: Figures, count: int
) -> None:
    """Asks a script of a program, and keeps what a line of each of its parts took, where that is
    less than before."""
    with Talk(command) as talk:
        for name, lines in script.items():
            answered = [(talk.ask(part)[0], len(part)) for part in parts(lines)]
            count_answered = sum(number for _, number in answered)
            spent = 1e9 * sum(seconds for seconds, _ in answered) / count_answered
            if count_answered >= FEWEST:
                known = figures.setdefault(name, {})
                known[count] = min(spent, known.get(count, spent))


def curves(quick: bool, program: str) -> list[tuple[Title, Figures]]:
    """The figures of each curve: the least of three turns, at a million and more of one."""
    found = []
    for title, script, counts, words in CURVES:
        figures: Figures = {}
        for count in counts[:2] if quick else counts:
            for _ in range(1 if quick or count >= 1_000_000 else 3):
                measured([program, *LIMITS, *words], script(count), figures, count)
        found.append((title, figures))
    return found


def rows(title: str, figures: Figures) -> list[list[str]]:
    """A table of one curve."""
    counts = sorted({count for known in figures.values() for count in known})
    cells = lambda known: [f"{known[count]:.0f}" if count in known else "" for count in counts]
    return [
        [f"ns a line, by {title}", *(f"{count:,}" for count in counts)],
        *([name, *cells(known)] for name, known in figures.items()),
    ]
