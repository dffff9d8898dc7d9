#!/usr/bin/env python3
"""Draws docs/vs-ets.svg, docs/speed.svg and docs/limits.svg from figures.json, the figures of the
last whole run."""

import pathlib

import plot
from figures import cell, machines, of

DOCS = pathlib.Path(__file__).resolve().parent.parent / "docs"
# The calls of the bench, as the drawings name them.
CALLS = {
    "insert": "insert",
    "hit": "lookup, hit",
    "miss": "lookup, miss",
    "counter": "update_counter",
    "write": "update_element",
    "delete": "delete",
}
# The names of the curves: whole calls of the store, and its peers.
NAMES = {
    "calls": "Yoyoash",
    "ets": "ets (Erlang)",
    "Mutex<HashMap>": "HashMap, Mutex",
    "oneTBB": "oneTBB (C++)",
}
SIZE = 100_000  # objects in the table of the bars of single calls


def speed() -> str:
    """Nanoseconds a call by the number of objects, a panel for each call."""
    panels = []
    for operation, title in CALLS.items():
        points = {name: points_of(f"{who} {operation}") for who, name in NAMES.items()}
        panels.append(
            plot.Panel(
                title,
                "objects in the table (logarithmic)",
                {name: curve for name, curve in points.items() if curve},
            )
        )
    return plot.curves(
        "Time of a call, by the size of the table",
        f"Lower is better. {machines('curve')}.",
        "ns per call (logarithmic)",
        panels,
    )


def points_of(line: str) -> plot.Points:
    return [
        (int(count), figures[line]) for count, figures in of("curve").items() if line in figures
    ]


def limits() -> str:
    """Nanoseconds a line of a script by how many objects, processes, tables or keys there are."""
    whole = lambda lines: {
        name: [(int(count), figure) for count, figure in points.items()]
        for name, points in lines.items()
    }
    panels = [
        plot.Panel(title, f"{across} (logarithmic)", whole(lines))
        for title, across, lines in of("limits")
    ]
    return plot.curves(
        "Time of a script's line, up to the limits",
        f"Lower is better. {machines('limits')}.",
        "ns per line (logarithmic)",
        panels,
    )


def versus() -> str:
    """Ratios to ets, a bar for each: single calls, searches of a whole table, memory, and
    threads."""
    title = f"Yoyoash compared with Erlang's ets ({SIZE:,} objects where no size is named)"
    return plot.bars(
        title,
        f"Ratio to ets, logarithmic. {machines('calls', 'passes', 'memory', 'clients')}.",
        [*rows_of_calls(), *rows_of_others()],
    )


def rows_of_calls() -> plot.Rows:
    """Ratios to ets of single calls, with the faster of its two runs."""
    sized = of("calls")[str(SIZE)]
    ets = {
        operation: min(sized[f"{who} {operation}"] for who in ("ets", "ets,pinned"))
        for operation in CALLS
    }
    return [
        row(label, sized[f"calls-into {operation}"], ets[operation], "ns")
        for operation, label in CALLS.items()
    ]


def rows_of_others() -> plot.Rows:
    """Ratios to ets of searches, memory and threads."""
    passes, memory, clients = of("passes"), of("memory"), of("clients")
    others = (
        (
            "select, one of 1,000,000",
            passes,
            "select, a guard",
            "this store",
            "ets",
            "ns per object",
        ),
        ("tab2list of 1,000,000", passes, "tab2list", "this store", "ets", "ns per object"),
        (
            "memory of {Int,Int}, 600,000 objects",
            memory,
            "{Int,Int}",
            "this store",
            "ets",
            "bytes",
        ),
        (
            "4 threads of a Server, 9 reads to a write",
            clients,
            "4 clients",
            "Server",
            "ets, concurrent",
            "ns",
        ),
    )
    return [
        row(label, cell(section, name, ours), cell(section, name, theirs), unit)
        for label, section, name, ours, theirs, unit in others
    ]


def row(label: str, ours: float, theirs: float, unit: str) -> tuple[str, float, str]:
    ratio = ours / theirs
    return label, round(ratio, 2), f"{ratio:.2f}x ({ours:,.0f}, ets {theirs:,.0f} {unit})"


def main() -> None:
    for name, drawing in ("vs-ets", versus), ("speed", speed), ("limits", limits):
        (DOCS / f"{name}.svg").write_text(drawing())


if __name__ == "__main__":
    main()
