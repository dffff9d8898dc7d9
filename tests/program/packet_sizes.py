"""Packets of all sizes, for tests/program/packets."""
import select
import struct
import subprocess

from packet_requests import (
    SPAWN,
    SYNTAX,
    T,
    TRUE,
    Atom,
    bodies,
    call,
    check,
    encode,
    packet,
    reply,
)
from packet_requests import request, run
from yoyoash import Pid

# The most bytes of a packet, and a smaller limit.
MOST, FEW = 16_777_216, 100
TOO_LONG = (SYNTAX, "the packet is too long")
ENDS_INSIDE = "ets_script: the input ends inside a packet\n"


def try_sizes(program):
    """The longest body, one that is longer by a byte, and input that ends inside a packet."""
    start = request(SPAWN, 0)
    head = len(encode((Atom("insert"), [T, (1, b"")]))) + 5
    longest = call(0, "insert", T, (1, bytes(MOST - head)))
    check("the longest body", struct.unpack(">I", longest[:4])[0], MOST)
    check(
        "the longest packet",
        run(program, start + call(0, "new", T, [Atom("named_table")]) + longest)[0][2:],
        [TRUE],
    )
    for part in (
        struct.pack(">I", MOST + 1),
        struct.pack(">I", MOST + 1) + bytes(MOST),
        longest[:-1],
        b"\0\0\0",
    ):
        check(
            "a part of a packet",
            run(program, start + part),
            ([Pid(0)], 1, ENDS_INSIDE),
        )
    check("no input", run(program, b""), ([], 0, ""))


def try_long(program):
    """Packets that are too long are refused, with any limit, and the tables stay."""
    start = (
        request(SPAWN, 0) + call(0, "new", T, [Atom("named_table")]) + call(0, "insert", T, (1, 2))
    )
    replies = [Pid(0), T, TRUE, TOO_LONG, [(1, 2)]]
    check(
        "a packet that is too long",
        run(program, start + packet(bytes(MOST + 1)) + call(0, "lookup", T, 1)),
        (replies, 0, ""),
    )
    long = packet(bytes(FEW + 1)) + packet(request(SPAWN, 1) * 12) + packet(bytes(70_000))
    given = packet(bytes(FEW)) + long + start + long + call(0, "lookup", T, 1)
    replies = [
        (SYNTAX, "not a request"),
        *[TOO_LONG] * 3,
        Pid(0),
        T,
        TRUE,
        *[TOO_LONG] * 3,
        [(1, 2)],
    ]
    check(
        "packets over --max-packet", run(program, given, f"--max-packet={FEW}"), (replies, 0, "")
    )
    for size in 0, 1, FEW:
        given = request(SPAWN, 0) + struct.pack(">I", FEW + 1) + bytes(size)
        check(
            "an end inside a packet that is too long",
            run(program, given, f"--max-packet={FEW}"),
            ([Pid(0)], 1, ENDS_INSIDE),
        )
    check(
        "the least --max-packet",
        run(program, packet(b"") + packet(b"x") + packet(b""), "--max-packet=0")[0],
        [(SYNTAX, "not a request"), TOO_LONG, (SYNTAX, "not a request")],
    )


def try_long_byte_by_byte(program):
    """A packet that is too long is refused while the input is open."""
    with subprocess.Popen(
        [program, "--external", f"--max-packet={FEW}"],
        stdin=subprocess.PIPE,
        stdout=subprocess.PIPE,
        bufsize=0,
    ) as running:
        for byte in packet(bytes(FEW + 1)):
            running.stdin.write(bytes((byte,)))
        is_ready = select.select([running.stdout], [], [], 10)[0]
        found = bodies(running.stdout.read(65_536)) if is_ready else []
        check("a refusal while the input is open", [reply(body) for body in found], [TOO_LONG])
        running.stdin.close()
