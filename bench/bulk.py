#!/usr/bin/env python3
"""Measures long calls, by packets and in ets: bench/bulk.py PROGRAM SECTION [--quick]. It is a
part of bench/run too.

Figures are the processor time of the program that makes the calls, so other programs disturb them
less."""

import sys

from asked import Sides, each
from building import OUT, stop
from packets import PRIME, atom, by_lists, call, integer, listed, new, one_list, row, singly
from timing import print_table, ratio, spread

LISTS = (20_000, 40_000, 80_000, 160_000, 320_000, 640_000, 1_000_000)


def long_lists(quick: bool, program: str) -> list[list[str]]:
    """One list of new objects into an empty set, and the same objects one by one, an object."""
    sides = Sides(program, 1 if quick else 3)
    rows = [
        [
            "new objects in an empty set, ns an object",
            "one list",
            "one by one",
            "ets, one list",
            "ets, one by one",
            "list to one by one",
            "list to ets' list",
        ]
    ]
    for count in (2_000, 20_000) if quick else LISTS:
        ours = [
            each(sides.ours([new("t")], asked("t", count)), count) for asked in (one_list, singly)
        ]
        theirs = [each(sides.theirs(what, "set", count), count) for what in ("list", "singly")]
        rows.append(
            [
                f"{count:,}",
                *map(spread, ours),
                *map(spread, theirs),
                ratio(*ours),
                ratio(ours[0], theirs[0]),
            ]
        )
    return rows


def one_key(quick: bool, program: str) -> list[list[str]]:
    """Objects of one key, inserted one by one. A set replaces, a bag compares, and a duplicate bag
    appends."""
    sides = Sides(program, 1 if quick else 3)
    rows = [["insertions {k,Number} one by one, ns each", "this store", "ets", "ratio"]]
    for kind, counts in {
        "set": (1_000, 100_000),
        "bag": (1_000, 4_000, 16_000),
        "duplicate_bag": (1_000, 10_000, 100_000),
    }.items():
        for count in counts[:1] if quick else counts:
            asked = [
                call("insert", atom("t"), row(atom("k"), integer(number)))
                for number in range(1, count + 1)
            ]
            ours, theirs = sides.ours([new("t", kind)], asked), sides.theirs(
                "one-key", kind, count
            )
            rows.append(
                [
                    f"{kind}, {count:,}",
                    *map(spread, (each(ours, count), each(theirs, count))),
                    ratio(ours, theirs),
                ]
            )
    return rows


def removals(quick: bool, program: str) -> list[list[str]]:
    """Calls that delete many objects, from a set that was filled one by one."""
    sides, count = Sides(program, 1 if quick else 3), 20_000 if quick else 1_000_000
    first = atom("$1")
    some = lambda pattern, *guards: listed([row(pattern, listed(guards), listed([atom("true")]))])
    asked = {
        "delete_all_objects": call("delete_all_objects", atom("t")),
        "delete": call("delete", atom("t")),
        "match_delete": call("match_delete", atom("t"), row(first, integer(1))),
        "select_delete": call("select_delete", atom("t"), some(row(first, integer(1)))),
        "select_delete_half": call(
            "select_delete",
            atom("t"),
            some(row(first, atom("_")), row(atom("<"), first, integer(count // 2))),
        ),
    }
    shows = {
        "delete": "delete of the table",
        "match_delete": "match_delete of all",
        "select_delete": "select_delete of all",
        "select_delete_half": "select_delete of half",
    }
    rows = [[f"of {count:,} objects, ns an object of the table", "this store", "ets", "ratio"]]
    for name, request in asked.items():
        ours, theirs = sides.ours([new("t"), *singly("t", count)], [request]), sides.theirs(
            name, "set", count
        )
        rows.append(
            [
                shows.get(name, name),
                *map(spread, (each(ours, count), each(theirs, count))),
                ratio(ours, theirs),
            ]
        )
    return rows


def growing(quick: bool, program: str) -> list[list[str]]:
    """A table that is used while growth is pending: in an older table that was filled by lists, or
    in itself."""
    sides = Sides(program, 1 if quick else 3)
    count, asked = (20_000, 5_000) if quick else (1_000_000, 50_000)
    young = singly("young", asked)
    lookups = [
        call("lookup", atom("old"), integer(number * PRIME * 31 % count))
        for number in range(asked)
    ]
    tables = [new("old"), new("young")]
    rows = [[f"{asked:,} calls, ns each", "growth is pending", "none is pending", "ratio"]]
    for name, requests, before in (
        (f"insertions, after an older table got {count:,} objects by lists", young, tables),
        (
            f"lookups in a table of {count:,} objects, filled by lists",
            lookups,
            [*tables, *singly("old", count)],
        ),
    ):
        pending, idle = sides.ours([*tables, *by_lists("old", count)], requests), sides.ours(
            before, requests
        )
        rows.append(
            [name, *map(spread, (each(pending, asked), each(idle, asked))), ratio(pending, idle)]
        )
    return rows


SECTIONS = {"long-lists": long_lists, "one-key": one_key, "removals": removals, "growing": growing}


def main() -> None:
    if len(sys.argv) < 3 or sys.argv[2] not in SECTIONS:
        stop(
            "bench/bulk.py PROGRAM SECTION [--quick], where SECTION is one of "
            f"{', '.join(SECTIONS)}"
        )
    OUT.mkdir(exist_ok=True)
    print_table(SECTIONS[sys.argv[2]]("--quick" in sys.argv, sys.argv[1]))


if __name__ == "__main__":
    main()
