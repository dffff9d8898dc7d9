"""Memory that long packets take and give back, for tests/program/packets."""
import os
import resource
import struct
import subprocess

from packet_requests import CALL, SPAWN, SYNTAX, T, Atom, bodies, call, check, encode, reply
from packet_requests import request
from yoyoash import Pid

# The bytes of a long packet, and the most that may stay of those of one kind. One buffer stays:
# 10.1 million bytes of requests, 10.6 of replies (2026-12-01). Two would be 20 million.
LONG, MOST = 10_000_000, 14_500_000
# How many long packets of a kind come, how many objects a long reply has, and how many small
# requests follow it.
TURNS, OBJECTS, SMALL = 3, 20, 1_000
# The bytes and levels of a packet whose terms claim to be long, and the bytes of memory that the
# program may map: it needs 6 MiB (2026-12-01), and 3 GB for as many elements as are claimed.
CLAIMED, LEVELS, ROOM = 1_000_000, 100, 64 << 20


def ask(running, given):
    running.stdin.write(given)
    running.stdin.flush()
    (size,) = struct.unpack(">I", running.stdout.read(4))
    return reply(running.stdout.read(size))


def ask_long(running):
    """Sends a long request, whose reply is short."""
    check("a long request", ask(running, call(0, "lookup", T, bytes(LONG))), [])


def answer_long(running):
    """Sends requests that are much shorter than the reply to the last one."""
    for key in range(OBJECTS):
        ask(running, call(0, "insert", T, (key, bytes(LONG // OBJECTS))))
    found = ask(running, call(0, "tab2list", T))
    check("a long reply", sum(len(binary) for _, binary in found), LONG)
    ask(running, call(0, "delete_all_objects", T))


def resident(running):
    """Returns the bytes of a process that are in memory, after small requests."""
    for key in range(SMALL):
        ask(running, call(0, "member", T, key))
    with open(f"/proc/{running.pid}/status") as status:
        return next(1024 * int(line.split()[1]) for line in status if line.startswith("VmRSS"))


def try_given_back(program):
    """After long packets the program keeps no more than one buffer of their size. By the threshold
    of the C library, a large block goes back to the system when it is freed."""
    for pass_packet in ask_long, answer_long:
        with subprocess.Popen(
            [program, "--external"],
            stdin=subprocess.PIPE,
            stdout=subprocess.PIPE,
            env={**os.environ, "MALLOC_MMAP_THRESHOLD_": "131072"},
        ) as running:
            ask(running, request(SPAWN, 0))
            ask(running, call(0, "new", T, [Atom("named_table")]))
            before = resident(running)
            for _ in range(TURNS):
                pass_packet(running)
                kept = resident(running) - before
                check(f"{pass_packet.__name__} leaves {kept} bytes", kept < MOST, True)


def limit_memory():
    resource.setrlimit(resource.RLIMIT_AS, (ROOM, ROOM))


def try_claims(program):
    """Nested lists and tuples, each of which claims as many elements as bytes are left, take
    little memory before the fault is found."""
    claims = b"\x83h\2" + encode(Atom("insert"))[1:]
    for level in range(LEVELS):
        claims += b"li"[level % 2 :][:1] + struct.pack(">I", CLAIMED - len(claims) - 5)
    given = request(SPAWN, 0) + request(CALL, 0, claims.ljust(CLAIMED, b"\0"))
    ran = subprocess.run(
        [program, "--external"],
        input=given + call(0, "new", T, [Atom("named_table")]),
        capture_output=True,
        timeout=60,
        preexec_fn=limit_memory,
    )
    check(
        "a packet that claims to be long",
        ([reply(body) for body in bodies(ran.stdout)], ran.returncode, ran.stderr),
        ([Pid(0), (SYNTAX, "unsupported tag"), T], 0, b""),
    )
