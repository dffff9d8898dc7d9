"""Refuses memory to requests in packets, for tests/program/packets."""
import pathlib
import tempfile

from packet_requests import (
    CALL,
    NO_MEMORY,
    SPAWN,
    T,
    UNTOLD,
    Atom,
    call,
    check,
    compile_library,
    request,
    run,
)


def try_memory(program):
    """Refuses each allocation in turn. The request that is refused for it is as if it had not been
    made."""
    new, big = call(0, "new", T, [Atom("named_table")]), (1, b"x" * 300, [2, Atom("a" * 40)])
    given = [
        request(SPAWN, 0),
        new,
        call(0, "insert", T, [(k, k) for k in range(9)]),
        call(0, "insert", T, big),
        call(0, "lookup", T, 1),
    ]
    given += [
        call(0, "lookup", Atom("v"), 1),
        request(CALL, 0, b"x"),
        request(3, 0),
        call(0, "update_counter", T, 2, 1),
        call(0, "lookup", T, 2),
    ]
    with tempfile.TemporaryDirectory() as room:
        library, seen = compile_library(room, "refuse_one.c"), pathlib.Path(room, "seen")
        refusing = lambda which, requests: run(
            program,
            b"".join(requests),
            "--seed=1",
            LD_PRELOAD=library,
            REFUSED=str(which),
            SEEN=str(seen),
        )
        whole = refusing(0, given)
        without = [refusing(0, given[:at] + given[at + 1 :])[0] for at in range(len(given))]
        which, count = 1, 0
        while True:
            found = refusing(which, given)
            if not seen.exists():
                break
            seen.unlink()
            count += try_refused(which, found, whole, without)
            which += 1
    check("more than 20 requests are refused memory", count > 20, True)


def try_refused(which, found, whole, without):
    """Checks a run in which an allocation was refused, and returns whether a reply says so."""
    replies, status, errors = found
    if status == 1:
        words = "out of memory" in errors or "OutOfMemory" in errors or errors == "** nomem\n"
        check(f"the end at allocation {which}", (replies, words), (whole[0][: len(replies)], True))
        return False
    refused = [
        at
        for at, reply in enumerate(replies)
        if is_refused(reply, NO_MEMORY) or is_refused(reply, UNTOLD)
    ]
    wanted = (
        whole[0]
        if not refused or is_refused(replies[refused[0]], UNTOLD)
        else without[refused[0]][: refused[0]]
        + [replies[refused[0]]]
        + without[refused[0]][refused[0] :]
    )
    same = [
        reply == other or is_refused(reply, UNTOLD) or is_silent(reply, other)
        for reply, other in zip(replies, wanted)
    ]
    check(
        f"the replies at allocation {which}",
        (all(same), len(replies), len(refused) < 2, status),
        (True, len(whole[0]), True, 0),
    )
    return bool(refused)


def is_silent(found, wanted):
    """Returns whether a refusal lacks only its reason."""
    return isinstance(wanted, tuple) and is_refused(wanted, wanted[0]) and found == (wanted[0], "")


def is_refused(found, status):
    return (
        isinstance(found, tuple)
        and len(found) == 2
        and found[0] == status
        and isinstance(found[1], str)
    )
