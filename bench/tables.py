"""Sections with programs of their own: layers, rows, tables, whole calls, and clients in
threads."""

from building import Programs, erlang, layers as built_layers, rust, tables as built_tables
from timing import Figures, least, ratio, spread

LAYERS = {
    "read": "read and drop a term, ns",
    "print": "print a term, ns",
    "list-insert": "insert into the sorted list, ns",
    "list-find": "find in the sorted list, ns",
    "list-bytes": "an item of the sorted list, bytes",
}
OPERATIONS = {
    "insert": "insert, ns",
    "hit": "lookup, hit, ns",
    "miss": "lookup, miss, ns",
    "counter": "update_counter, ns",
    "write": "update_element, ns",
    "write-or": "update_element with a default, hit, ns",
    "delete": "delete, ns",
    "bytes": "an object, bytes",
    "longest": "the longest insertion, its growth included, ns",
    "doubling": "a doubling of its buckets, ns",
}
COUNTS = (1_000, 20_000, 100_000, 1_000_000, 4_000_000)  # objects in a table
FIELD = ("Mutex<HashMap>", "HashMap", "cds_lfht", "oneTBB")
OURS = {
    "calls": "Node::step",
    "calls-into": "Node::step_into",
    "calls-run": "Node::run, lists of 64",
    "table": "Table<SplitRows<Fnv>>",
    "rows": "SplitRows<Fnv>",
}
WHOLE = ("Mutex<HashMap>,copies", "HashMap,copies", "ets", "ets,pinned")
PEERS = {"calls": WHOLE, "calls-into": WHOLE, "calls-run": WHOLE, "table": FIELD, "rows": FIELD}
CALLS = (
    "calls",
    "calls-into",
    "calls-run",
)  # whole calls, whose figures are also kept by themselves
WAYS = {
    "calls": "times",
    "calls-into": "into",
    "calls-run": "run",
}  # the part of bench_calls that makes calls in this way
CLIENTS = (1, 2, 4)
# What threads call, by its name and operation in the lines of the programs, and its name in a
# table.
CROWD = {
    ("shared", "mixture"): "Shared",
    ("server", "mixture"): "Server",
    ("server-sharded", "mixture"): "Server, sharded lock",
    ("Mutex<HashMap>,journal", "mixture"): "Mutex<HashMap>, a journal",
    ("Mutex<HashMap>,copies", "mixture"): "Mutex<HashMap>",
    ("RwLock<HashMap>", "mixture"): "RwLock<HashMap>",
    ("sharded", "mixture"): "16 of RwLock<HashMap>",
    ("ets", "mixture"): "ets",
    ("ets,concurrent", "mixture"): "ets, concurrent",
}
READERS = {
    ("server-reads", "mixture"): "Server",
    ("server-sharded-reads", "mixture"): "Server, sharded lock",
    ("server-lists", "mixture"): "Server, lists of 16",
    ("server-sharded-lists", "mixture"): "Server, sharded lock, lists of 16",
    ("Mutex<HashMap>,copies", "reads"): "Mutex<HashMap>",
    ("RwLock<HashMap>", "reads"): "RwLock<HashMap>",
    ("sharded", "reads"): "16 of RwLock<HashMap>",
    ("ets", "reads"): "ets",
    ("ets,concurrent", "reads"): "ets, concurrent",
}


def layers(quick: bool, programs: Programs) -> list[list[str]]:
    """The store's layers and hand-written Rust."""
    count, driver = "100000" if quick else "1000000", built_layers(programs)
    commands = (
        [[driver, part, count] for part in ("text", "store-list", "rust-list", "chase")]
        if driver
        else []
    )
    found = least(commands, 1 if quick else 3)
    rows = [["layer", "this store", "hand-written Rust", "ratio"]]
    for operation, shows in LAYERS.items():
        ours, theirs = found.get(("store", operation)), found.get(("Rust", operation))
        rows.append([shows, spread(ours), spread(theirs), ratio(ours, theirs)])
    return rows + [
        ["one dependent miss of the cache, ns", spread(found.get(("machine", "miss"))), "", ""]
    ]


def curve(wanted: list[str], quick: bool, programs: Programs) -> dict[int, Figures]:
    """The figures of these of ours and of their peers at each number of objects, interleaved."""
    sides = [side for name in wanted for side in (ours_of(name, programs), *peers_of(name))]
    parts = list(dict.fromkeys(part for side in sides for part in side))
    counts, turns = (COUNTS[:2], 1) if quick else (COUNTS, 3)
    return {count: least([[*part, str(count)] for part in parts], turns) for count in counts}


Part = tuple[str, ...]  # the words that run one part of a program, but for the number of objects


def ours_of(name: str, programs: Programs) -> list[Part]:
    if PEERS[name] is WHOLE:
        return [(programs.program("bench_calls"), WAYS[name])]
    return [
        (programs.program("bench_tables"), part, name) for part in ("times", "bytes", "longest")
    ]


def peers_of(name: str) -> list[list[Part]]:
    maps, field, ets = rust("maps"), built_tables(), erlang("ets_calls")
    if PEERS[name] is WHOLE:
        return [
            [(maps, "copies")] if maps else [],
            [(*ets, "times"), (*pinned(ets), "times-pinned")] if ets else [],
        ]
    ours = [(maps, part) for part in ("times", "bytes", "longest")] if maps else []
    theirs = ("cds_lfht", "cds_lfht-bytes", "oneTBB", "oneTBB-bytes", "oneTBB-longest")
    return [ours, [(field, part) for part in theirs] if field else []]


def pinned(command: list[str]) -> list[str]:
    """The same program of Erlang with one scheduler, which stays on one processor."""
    return [command[0], "+S", "1:1", "+sbt", "db", *command[1:]]


def compared(found: Figures, who: str, count: int) -> list[list[str]]:
    """The figures of one of ours and of each peer, and their ratios."""
    peers = PEERS[who]
    rows = [
        [
            f"{OURS[who]}, {count:,} objects {{K,V}}",
            "ours",
            *peers,
            *(f"to {name}" for name in peers),
        ]
    ]
    for operation, shows in OPERATIONS.items():
        ours, theirs = found.get((who, operation)), [
            found.get((name, operation)) for name in peers
        ]
        if ours:
            rows.append(
                [
                    shows,
                    spread(ours),
                    *(spread(peer) if peer else "" for peer in theirs),
                    *(ratio(ours, peer) for peer in theirs),
                ]
            )
    return rows


def walks(quick: bool, programs: Programs) -> list[list[str]]:
    """A traversal of a whole table, as calls: nanoseconds an object."""
    count, turns = (10_000, 1) if quick else (1_000_000, 3)
    ets = erlang("ets_calls")
    found = least(
        [
            [*side, "walks", str(count)]
            for side in ([programs.program("bench_calls")], ets)
            if side
        ],
        turns,
    )
    apart, together, theirs = (
        found["calls", "next+lookup"],
        found["calls", "next_lookup"],
        found.get(("ets", "next+lookup")),
    )
    rows = [[f"a traversal of {count:,} objects, an object, ns", "ours", "ets", "to ets"]]
    rows.append(["next, then lookup", spread(apart), spread(theirs), ratio(apart, theirs)])
    return rows + [
        ["next_lookup", spread(together), "", ""],
        ["next_lookup over next and lookup", ratio(together, apart), "", ""],
    ]


def clients(quick: bool, programs: Programs) -> list[list[str]]:
    """Threads that call one node, nine lookups to an insertion: nanoseconds a call of all
    together."""
    calls, turns = (20_000, 1) if quick else (200_000, 3)
    found = by_threads(["clients", "server"], calls, turns, programs)
    alone = least([[programs.program("bench_calls"), "alone", str(calls)]], turns)[
        "alone", "mixture"
    ]
    rows = crowd_rows(f"{calls:,} calls each, 90 lookups to 10 insertions, ns", CROWD, found)
    return rows + [
        ["the same calls as steps of a node, one caller", spread(alone), *[""] * (len(CROWD) - 1)]
    ]


def readers(quick: bool, programs: Programs) -> list[list[str]]:
    """Threads that read one node: nanoseconds a call of all together."""
    calls, turns = (20_000, 1) if quick else (200_000, 3)
    found = by_threads(["reads", "lists"], calls, turns, programs)
    rows = crowd_rows(f"{calls:,} lookups each, ns", READERS, found)
    first, last = found[CLIENTS[0]], found[CLIENTS[-1]]
    return rows + [
        [
            f"calls a second of {CLIENTS[-1]} threads to those of 1",
            *(ratio(first.get(key), last.get(key)) for key in READERS),
        ]
    ]


def by_threads(parts: list[str], calls: int, turns: int, programs: Programs) -> dict[int, Figures]:
    """The figures of these parts of our program and of the peers, for each number of threads."""
    ours, maps, ets = programs.program("bench_calls"), rust("maps"), erlang("ets_calls")
    peers = [*([[maps, "clients"]] if maps else []), *([[*ets, "clients"]] if ets else [])]
    sides = [*([ours, part] for part in parts), *peers]
    return {
        threads: least([[*side, str(threads), str(calls)] for side in sides], turns)
        for threads in CLIENTS
    }


def crowd_rows(
    title: str, sides: dict[tuple[str, str], str], found: dict[int, Figures]
) -> list[list[str]]:
    """A row for each number of threads, and one with the ratios of a server to each side for the
    most."""
    rows = [[title, *sides.values()]]
    for threads, figures in found.items():
        rows.append(
            [
                f"{threads} client{'s' * (threads > 1)}",
                *(spread(figures.get(key)) for key in sides),
            ]
        )
    server = next(key for key, name in sides.items() if name == "Server")
    most = found[CLIENTS[-1]]
    return rows + [
        [
            f"Server to each, {CLIENTS[-1]} clients",
            *(ratio(most.get(server), most.get(key)) for key in sides),
        ]
    ]
