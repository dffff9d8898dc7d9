"""The script workloads: each a name, what it shows, a probe and its lines, the same at every
run."""

import random
from dataclasses import dataclass
from typing import Callable, Iterator


@dataclass(frozen=True)
class Workload:
    name: str
    shows: str
    lines: Callable[[int], Iterator[str]]
    size: int
    quick: int
    sorted_parts: bool = False  # the answers hold keys in the table's own order

    def script(self, quick: bool) -> str:
        return "\n".join(self.lines(self.quick if quick else self.size)) + "\n"

    def probe(self) -> str:
        """The same lines in small: a store that answers them has the calls of this workload."""
        return "\n".join(self.lines(8)) + "\n"


def mixed(count: int) -> list[int]:
    """The numbers below count, each once, in an order that chance gives, the same at every run."""
    numbers = list(range(count))
    random.Random(count).shuffle(numbers)
    return numbers


def table(options: str = "") -> list[str]:
    return ["spawn p", f"p new(t,[named_table{options}])"]


def one_key(count: int) -> Iterator[str]:
    yield from table()
    for i in range(count // 2):
        yield f"p insert(t,{{a,{i}}})"
        yield "p lookup(t,a)"


def many_keys(count: int) -> Iterator[str]:
    yield from table()
    for i in mixed(count // 2):
        yield f"p insert(t,{{{i},{i * 7}}})"
        yield f"p lookup(t,{i})"


def nested(count: int) -> Iterator[str]:
    yield from table()
    for i in range(count // 2):
        yield (
            f"p insert(t,{{k{i % 500},{{'Hello World',"
            f"[{i},{{x,'it\\'s',{{{i},y}}}}]}},[a,b,c]}})"
        )
        yield f"p lookup(t,k{i * 31 % 500})" if i >= 500 else "p lookup(t,none)"


def counters(count: int) -> Iterator[str]:
    yield from table()
    for i in range(100):
        yield f"p insert(t,{{{i},0}})"
    for i in range(count):
        yield f"p update_counter(t,{i % 100},{i % 7})"


def select(count: int) -> Iterator[str]:
    yield from table()
    objects = min(count * 10, 10_000)
    for i in mixed(objects):
        yield f"p insert(t,{{{i},{i * 3}}})"
    for i in range(count):
        yield f"p select(t,[{{{{{i % objects},'$1'}},[],['$1']}}])"
        if i % 50 == 0:
            yield f"p select(t,[{{{{'_','$1'}},[{{'>','$1',{objects * 3 - 30}}}],['$1']}}])"


def bags(count: int) -> Iterator[str]:
    yield from table(",bag")
    for i in range(count):
        yield f"p insert(t,{{k{i // 100},{i}}})"
        if i % 100 == 99:
            yield f"p lookup(t,k{i // 100})"


def heirs(count: int) -> Iterator[str]:
    """Processes with sixteen tables each, which go to the first process as they end, or away with
    them."""
    yield "spawn p"
    for process in range(1, max(count // 16, 1) + 1):
        own = range(16 * process, 16 * process + 16)
        yield f"spawn p{process}"
        for i in own:
            heir = ",{heir,<0.0.0>,g}" if i % 2 else ""
            yield f"p{process} new(t{i},[named_table,public{heir}])"
            yield f"p{process} insert(t{i},{{a,{i}}})"
        yield f"exit p{process}"
        yield "p receive()"
        for i in own[1::2]:
            yield f"p lookup(t{i},a)"
            yield f"p delete(t{i})"


def walk(count: int) -> Iterator[str]:
    """A fixed table whose keys are asked for one by one, each then deleted and inserted again.

    So each key but the first is answered once by `next`, in whatever order a table has."""
    yield from table()
    for i in mixed(count):
        yield f"p insert(t,{{{i},0}})"
    yield "p safe_fixtable(t,true)"
    yield "p first(t)"
    for i in range(count):
        yield f"p next(t,{i})"
        yield f"p delete(t,{i})"
        yield f"p insert(t,{{{i},1}})"
    yield "p safe_fixtable(t,false)"


def sessions(count: int) -> Iterator[str]:
    """A cache of sessions: each is made, read and touched; each thousandth line those go that were
    not touched lately."""
    yield from table()
    for i in range(count):
        yield f"p insert(t,{{s{i},{i},{{user,{i % 97}}}}})"
        yield f"p lookup(t,s{i * 7 // 8})"
        yield f"p update_counter(t,s{i},{{2,1}})"
        if i % 1_000 == 999:
            yield f"p select_delete(t,[{{{{'_','$1','_'}},[{{'<','$1',{i - 5_000}}}],[true]}}])"


def routes(count: int) -> Iterator[str]:
    """A routing table: four routes for each destination in a bag, and matches whose key is
    bound."""
    yield from table(",bag")
    keys = min(count, 50_000)
    for i in range(4):
        for key in mixed(keys):
            yield f"p insert(t,{{d{key},hop{i},{key % 16 + i}}})"
    for i in range(count):
        yield f"p match(t,{{d{i * 31 % keys},'$1','$2'}})"


def tables(count: int) -> Iterator[str]:
    """A table for each number, then an insertion and a lookup in each."""
    yield "spawn p"
    for i in range(count):
        yield f"p new(t{i},[named_table])"
    for i in range(count):
        yield f"p insert(t{i},{{a,{i}}})"
    for i in range(count):
        yield f"p lookup(t{i * 31 % count},a)"


# The full sizes keep the fastest peer busy for half a second or more on a machine with nothing
# else to do.
WORKLOADS = [
    Workload("one key", "insert and lookup in turn, one key", one_key, 2_000_000, 200_000),
    Workload("many keys", "insert and lookup in turn, 800,000 keys", many_keys, 1_600_000, 10_000),
    Workload(
        "nested terms",
        "objects with nested tuples and quoted atoms, 500 keys",
        nested,
        600_000,
        20_000,
    ),
    Workload("counters", "update_counter over 100 keys", counters, 3_000_000, 50_000),
    Workload(
        "select",
        "select with a bound key, and each 50th unbound, over 10,000 objects",
        select,
        200_000,
        1_000,
        True,
    ),
    Workload("bags", "100 objects a key in a bag", bags, 600_000, 10_000),
    Workload(
        "heirs", "4,000 processes with sixteen tables each, heirs and exits", heirs, 64_000, 800
    ),
    Workload(
        "sessions",
        "a cache: insert, lookup, update_counter, and select_delete of the old",
        sessions,
        300_000,
        3_000,
    ),
    Workload("routes", "match with a bound key over a bag of 50,000 keys", routes, 600_000, 5_000),
    Workload("tables", "65,536 tables, an insertion and a lookup in each", tables, 65_536, 2_000),
    Workload(
        "fixed walk",
        "next over a fixed table, with deletes and inserts between",
        walk,
        400_000,
        2_000,
        True,
    ),
]
