"""Requests and replies in packets, and a list of the faults that were found, for the tests of
`--external`."""
import os
import pathlib
import struct
import subprocess
import sys

TOP = pathlib.Path(__file__).resolve().parents[2]
sys.path.insert(0, str(TOP / "bindings/python"))

from yoyoash import Atom, decode, encode

SPAWN, EXIT, CALL = 0, 1, 2
BADARG, LIMIT, NO_PROCESS, NO_MEMORY, SYNTAX, UNTOLD = 1, 2, 3, 4, 5, 7
T, TRUE = Atom("t"), Atom("true")
faults = []


def check(what, found, wanted):
    if found != wanted:
        faults.append(f"{what}: {found!r} and not {wanted!r}")


def packet(body):
    return struct.pack(">I", len(body)) + body


def request(kind, pid, rest=b""):
    return packet(struct.pack(">BI", kind, pid) + rest)


def call(pid, name, *arguments):
    return request(CALL, pid, encode((Atom(name), list(arguments))))


def bodies(output):
    """Cuts output into the bodies of its packets."""
    found, at = [], 0
    while len(output) - at >= 4:
        (size,) = struct.unpack_from(">I", output, at)
        found.append(output[at + 4 : at + 4 + size])
        at += 4 + size
    check("bytes after the last packet", output[at:], b"")
    return found


def reply(body):
    """Returns the term of a reply, or its status with its reason."""
    return decode(body[1:]) if body[0] == 0 else (body[0], body[1:].decode())


def run(program, given, *options, **environment):
    """Returns the replies, the status and standard error of a run."""
    ran = subprocess.run(
        [program, "--external", *options],
        input=given,
        capture_output=True,
        timeout=60,
        env={**os.environ, **environment},
    )
    return [reply(body) for body in bodies(ran.stdout)], ran.returncode, ran.stderr.decode()


def compile_library(room, name):
    """Compiles a file of this folder to a library that is loaded into the program, and returns its
    path."""
    source, library = f"{TOP}/tests/program/{name}", pathlib.Path(room, "library.so")
    subprocess.run(["cc", "-O1", "-shared", "-fPIC", "-o", library, source], check=True)
    return str(library)
