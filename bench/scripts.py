"""What scripts show: workloads, memory, passes over a whole table, lists that fill one, and
fixes."""

import pathlib
import re
import subprocess
import time

from building import OUT, erlang, stop
from searches import SHAPES, Shape, by_lists, lookups, rounds, searches, singly
from timing import LIMIT, Figures, Runs, Talk, least, ratio, spread, timed
from workloads import WORKLOADS, Workload, mixed

Commands = dict[str, list[str]]
MARKS = (25_000, 50_000, 100_000, 200_000)  # lookups after lists, while growth catches up


def workloads(word: str, quick: bool, programs: Commands) -> list[list[str]]:
    """The workloads whose name has this word: the store and each peer."""
    rows = [["script", "this store", "peer", "its time", "ratio"]]
    for workload in WORKLOADS:
        if word in workload.name:
            rows += row(workload, quick, programs, 2 if quick else 5)
    return rows


def row(workload: Workload, quick: bool, programs: Commands, times: int) -> list[list[str]]:
    if "** badarg" in answers(programs["store"], workload.probe()):
        return [[workload.name, "not yet", "", "", ""]]
    script = OUT / "script.txt"
    script.write_text(workload.script(quick))
    runs = {name: Runs() for name in programs}
    turn = lambda name: timed(runs[name], programs[name], script, OUT / f"{name}.answers")
    rivals = [name for name in programs if name != "store"]
    for _ in range(times):  # store, peer, store, .. so that each sees the same machine
        for name in rivals:
            turn("store")
            turn(name)
    ours, rows = runs["store"], []
    for name in rivals:
        theirs = runs[name]
        ended = not (ours.failed or theirs.failed)
        agree = not ended or same(workload, OUT / "store.answers", OUT / f"{name}.answers")
        shown = ratio(ours.wall, theirs.wall) if ended else "-"
        rows.append(
            [
                workload.name,
                ours.show(),
                name,
                theirs.show(),
                shown + ("" if agree else "  ANSWERS DIFFER"),
            ]
        )
    return rows


def same(workload: Workload, ours: pathlib.Path, theirs: pathlib.Path) -> bool:
    """Equal answers, byte for byte; where they hold keys in the table's order, up to that
    order."""
    if not workload.sorted_parts:
        return ours.read_bytes() == theirs.read_bytes()
    parts = lambda path: sorted(re.split(rb"[\n,\[\]]", path.read_bytes()))
    return parts(ours) == parts(theirs)


def answers(command: list[str], text: str) -> str:
    try:
        return subprocess.run(
            command, input=text, capture_output=True, text=True, timeout=LIMIT
        ).stdout
    except subprocess.TimeoutExpired:
        return ""


def with_erlang(programs: Commands) -> Commands:
    return {name: command for name, command in programs.items() if name in ("store", "Erlang")}


def memory(quick: bool, programs: Commands) -> list[list[str]]:
    """Bytes an object of several shapes: how much the peak of a program grows for each of twice as
    many objects, and what ets counts for its own tables (the peak of a program in Erlang that
    reads a script has much else in it)."""
    count = 150_000 if quick else 300_000
    own = {name: command for name, command in programs.items() if name != "Erlang"}
    ets = by_calls("memory", 2 * count, 1)
    rivals = [*(name for name in own if name != "store"), "ets"]
    rows = [
        [
            f"{2 * count:,} objects compared with {count:,}, bytes an object",
            "this store",
            *rivals,
            *(f"to {name}" for name in rivals),
        ]
    ]
    for shape in SHAPES:
        each = {
            name: [(peak(command, shape, 2 * count) - peak(command, shape, count)) / count]
            for name, command in own.items()
        }
        each["ets"] = ets.get(("ets", shape.short), [])
        rows.append(
            [
                shape.name,
                *map(spread, each.values()),
                *(ratio(each["store"], each[name]) for name in rivals),
            ]
        )
    return rows


def by_calls(part: str, count: int, turns: int) -> Figures:
    """The figures of ets, called in process."""
    command = erlang("ets_calls")
    return least([[*command, part, str(count)]], turns) if command else {}


def peak(command: list[str], shape: Shape, count: int) -> float:
    """The peak of a program's memory as it fills a table with this many objects, in bytes. It is
    read while the program runs: what the kernel tells at its end begins with the memory of the
    process that started it."""
    script, most = OUT / "memory.txt", 0
    with open(script, "w") as given:
        given.writelines(line + "\n" for line in shape.lines(count))
    with open(script, "rb") as given, open(OUT / "memory.answers", "wb") as taken:
        process = subprocess.Popen(command, stdin=given, stdout=taken, stderr=subprocess.DEVNULL)
        while process.poll() is None:
            most = max(most, high_water(process.pid))
            time.sleep(0.002)
    return most


def high_water(pid: int) -> int:
    """The peak of a process's memory until now, in bytes; 0 if it has ended."""
    try:
        found = re.search(r"VmHWM:\s+(\d+) kB", pathlib.Path(f"/proc/{pid}/status").read_text())
    except OSError:
        return 0
    return 1024 * int(found[1]) if found else 0


def passes(quick: bool, programs: Commands) -> list[list[str]]:
    """Calls that search all objects of a table that was filled one by one, an object: from the
    line's way in to the end of its answer, and in ets by calls in process, where nothing is read
    and printed."""
    count, turns = (20_000, 1) if quick else (1_000_000, 3)
    fill, asked = singly(count), searches(count)
    spent = {search.name: [] for search in asked}
    for _ in range(turns):
        with Talk(programs["store"]) as talk:
            talk.ask(fill)
            for search in asked:
                spent[search.name] += [
                    1e9 * talk.ask([search.call])[0] / count for _ in range(search.passes)
                ]
    ets = by_calls("searches", count, turns)
    rows = [[f"all of {count:,} objects {{K,V}}, ns an object", "this store", "ets", "ratio"]]
    for search in asked:
        theirs = ets.get(("ets", search.short), [])
        rows.append(
            [
                search.name,
                spread(spent[search.name]),
                spread(theirs),
                ratio(spent[search.name], theirs),
            ]
        )
    return rows


def lists(quick: bool, programs: Commands) -> list[list[str]]:
    """A table filled by lists of 100 in a true shuffle, one filled one by one, and lookups after
    that, a line each: growth, of which a line does two steps, catches up meanwhile."""
    count, turns = (30_000, 1) if quick else (300_000, 3)
    marks = [mark * count // 300_000 for mark in MARKS]
    keys = lookups(count, marks[-1])
    parts = {
        f"lookups {start + 1:,} to {end:,} after lists": keys[start:end]
        for start, end in zip([0, *marks], marks)
    }
    spent: dict[tuple[str, str], list[float]] = {}
    for _ in range(turns):
        checks = {name: [] for name in programs}
        for name, command in programs.items():
            note = lambda part, talk, lines, each: checks[name].append(
                noted(spent, part, name, talk.ask(lines), each)
            )
            with Talk(command) as talk:
                note("put one by one, an object", talk, singly(count), count)
                note("lookups after that", talk, keys[: marks[0]], marks[0])
            with Talk(command) as talk:
                note("put by lists of 100, an object", talk, by_lists(count), count)
                for part, lines in parts.items():
                    note(part, talk, lines, len(lines))
        if len(set(map(tuple, checks.values()))) > 1:
            stop("the answers after lists differ")
    rivals = [name for name in programs if name != "store"]
    rows = [[f"{count:,} objects {{K,V}}, ns", *programs, *(f"to {name}" for name in rivals)]]
    for part in dict.fromkeys(part for part, _ in spent):
        each = {name: spent[part, name] for name in programs}
        rows.append(
            [
                part,
                *map(spread, each.values()),
                *(ratio(each["store"], each[name]) for name in rivals),
            ]
        )
    return rows


def noted(spent: dict, part: str, name: str, told: tuple[float, int, str], each: int) -> str:
    """Keeps the nanoseconds of a part, and answers the checksum of what was answered."""
    seconds, _, checksum = told
    spent.setdefault((part, name), []).append(1e9 * seconds / each)
    return checksum


def releases(quick: bool, programs: Commands) -> list[list[str]]:
    """What it costs to fix a table, delete one object and release it: the held slot alone, not the
    table."""
    count, deleted, turns = (20_000, 2_000, 1) if quick else (1_000_000, 100_000, 3)
    programs, keys = with_erlang(programs), mixed(count)[:deleted]
    rows = [
        [
            f"one of {count:,} objects deleted, ns",
            "fixed for it, and released",
            "between two calls of member",
            "ratio",
        ]
    ]
    for name, command in programs.items():
        spent = {True: [], False: []}
        for _ in range(turns):
            for is_fixed, figures in spent.items():
                with Talk(command) as talk:
                    talk.ask(singly(count))
                    figures.append(1e9 * talk.ask(rounds(keys, is_fixed))[0] / deleted)
        rows.append(
            [name, spread(spent[True]), spread(spent[False]), ratio(spent[True], spent[False])]
        )
    return rows
