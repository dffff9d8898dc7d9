"""Programs that play the store, terms by chance, and where the real program and library are."""

import logging
import pathlib
import random
import re
import sys
import threading
from unittest import mock

from yoyoash import Atom, Pid, Tid, Unavailable, calling, finding, program, spell

# A busy machine makes steps slow, and asyncio would report them.
logging.getLogger("asyncio").setLevel(logging.ERROR)
program.SHORTLY = 30.0

HERE = pathlib.Path(__file__).resolve().parent
PACKAGE = HERE.parent
REPOSITORY = HERE.parents[2]
# What a program that plays the store needs to read and write packets.
STAND_IN = """
import os, struct, sys, time
def receive():
    head = sys.stdin.buffer.read(4)
    if len(head) < 4: sys.exit()
    return sys.stdin.buffer.read(struct.unpack('>I', head)[0])
def answer(body):
    sys.stdout.buffer.write(struct.pack('>I', len(body)) + body)
    sys.stdout.flush()
def number(number): answer(b'\\0\\x83b' + struct.pack('>i', number))
def say(text): print(text, file=sys.stderr, flush=True)
"""
# Returns the key of a lookup in the table t, and of any other request its place.
ECHO_REQUESTS = """
head, place = b'\\x83h\\2w\\6lookupl\\0\\0\\0\\2w\\1t', 0
while True:
    body = receive()
    if body[5:].startswith(head): answer(b'\\0\\x83' + body[5 + len(head):-1])
    else: number(place)
    place += 1
"""


def stand_in(code):
    """Returns a program that plays the store. The code may call the functions of STAND_IN."""
    return [sys.executable, "-S", "-c", STAND_IN + code]


def answering(*bodies):
    """Returns a program that gives these answers, one for each request, and ends."""
    return stand_in(f"for body in {list(bodies)!r}:\n receive()\n answer(body)")


ECHO = stand_in(ECHO_REQUESTS)


def found(find):
    """Returns the path that the package finds, or None."""
    try:
        return find()
    except Unavailable:
        return None


PROGRAM, LIBRARY = found(finding.program), found(finding.library)
EXTENSION = calling.extension


def without_extension():
    """Returns a context in which stores are opened without the extension."""
    return mock.patch.object(calling, "extension", None)


def in_time(work, seconds=10):
    """Does some work in a thread. Returns whether it ended in time, and what it raised."""
    raised = []

    def run():
        try:
            work()
        except BaseException as error:
            raised.append(error)

    thread = threading.Thread(target=run, daemon=True)
    thread.start()
    thread.join(seconds)
    return not thread.is_alive(), raised


def printed(term):
    """Returns a term's text as the store prints it."""
    match term:
        case Atom(text) if re.fullmatch(r"[a-z][A-Za-z0-9_@]*", text):
            return text
        case tuple():
            return "{" + ",".join(map(printed, term)) + "}"
        case list():
            return "[" + ",".join(map(printed, term)) + "]"
    return spell(term)


def any_term(numbers: random.Random, depth=4):
    """Returns a term by chance, at most this deep."""
    kind = numbers.randrange(8 if depth else 6)
    several = lambda: [any_term(numbers, depth - 1) for _ in range(numbers.randrange(4))]
    match kind:
        case 0:
            return numbers.choice([0, -1, 2**127 - 1, -(2**127), 2**64, numbers.randrange(-1000, 1000)])
        case 1:
            return Atom("".join(numbers.choice("abzAZ09_@") for _ in range(numbers.randrange(6))))
        case 2:
            return Atom("".join(map(chr, numbers.choices(range(32, 127), k=numbers.randrange(255)))))
        case 3:
            return Pid(numbers.randrange(2**32))
        case 4:
            return Tid(numbers.randrange(2**32))
        case 5:
            return numbers.randbytes(numbers.randrange(20))
        case 6:
            return tuple(several())
    return several()
