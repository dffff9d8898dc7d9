#!/usr/bin/env python3
"""Measures lookups a second: by pipe one by one, in a pipeline and with asyncio, and in this process with the
extension and without it; and in this process as texts, without the conversion of terms. The ways are interleaved in one
run.

    bindings/python/build-extension     (once)
    python3 bindings/python/measure.py [LIBRARY [PROGRAM]]     (found as docs/python.md says)"""

import asyncio
import datetime
import os
import platform
import sys
import time

from yoyoash import Atom, Process, Store, aio, calling, finding
from yoyoash.library import Library

# A turn is short, so that the best one had a core to itself.
ROWS, TURNS = 200, 500
TABLE = Atom("t")


def filled(store: Store) -> Process:
    """Returns a process with a table."""
    process = store.spawn("p")
    process.new(TABLE, [Atom("named_table")])
    process.insert(TABLE, [(key, 2 * key) for key in range(ROWS)])
    return process


def one_by_one(process: Process) -> None:
    for key in range(ROWS):
        process.lookup(TABLE, key)


def together(process: Process) -> None:
    with process.pipeline() as calls:
        for key in range(ROWS):
            calls.lookup(TABLE, key)


def awaited(loop: asyncio.AbstractEventLoop, process: aio.Process) -> None:
    async def lookups() -> None:
        await asyncio.gather(*[process.lookup(TABLE, key) for key in range(ROWS)])

    loop.run_until_complete(lookups())


def as_texts(process: Process, way: Library) -> None:
    for key in range(ROWS):
        way.call(process.name, process.pid, "lookup", f"t,{key}")


async def filled_for_asyncio(store: aio.Store) -> aio.Process:
    await store.open()
    process = await store.spawn("p")
    await process.new(TABLE, [Atom("named_table")])
    await process.insert(TABLE, [(key, 2 * key) for key in range(ROWS)])
    return process


def by_ctypes(library: str | None) -> Store:
    """Opens a store in this process that does not use the extension."""
    extension, calling.extension = calling.extension, None
    try:
        return Store.in_process(library)
    finally:
        calling.extension = extension


def seconds(work, *given) -> float:
    began = time.perf_counter()
    work(*given)
    return time.perf_counter() - began


def main(library=None, program=None):
    program = finding.program(program)
    loop, other = asyncio.new_event_loop(), aio.Store(program)
    with Store.in_process(library) as near, by_ctypes(library) as plain, Store.pipe(program) as far:
        here, there, soon = filled(near), filled(far), loop.run_until_complete(filled_for_asyncio(other))
        by_extension = {"in process, by the extension": (one_by_one, here)} if calling.extension else {}
        ways = {
            "by pipe, one by one": (one_by_one, there),
            "by pipe, in a pipeline": (together, there),
            "by pipe, asyncio, 200 at once": (awaited, loop, soon),
            **by_extension,
            "in process, by ctypes": (one_by_one, filled(plain)),
            "texts in process": (as_texts, here, near._way),
        }
        taken = [{name: seconds(*way) for name, way in ways.items()} for _ in range(TURNS)]
        loop.run_until_complete(other.close())
    loop.close()
    best = {name: ROWS / min(turn[name] for turn in taken) for name in ways}
    for name, rate in best.items():
        times = rate / best["by pipe, one by one"]
        print(f"{name:32}{rate:>10,.0f} a second {1e6 / rate:6.1f} us each {times:5.1f} times the first")
    load = " ".join(f"{it:.1f}" for it in os.getloadavg())
    print(f"best of {TURNS} turns of {ROWS}; Python {platform.python_version()}, {os.cpu_count()} cores")
    print(f"load {load}, {datetime.date.today()}")


if __name__ == "__main__":
    main(*sys.argv[1:])
