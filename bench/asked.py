"""Programs with pipes whose processor time is read: the store by packets, and Erlang's ets."""

import pathlib
import struct
import subprocess
import threading
import time
from dataclasses import dataclass

from building import erlang, stop
from packets import SPAWN
from timing import Piped

LONGEST = 240.0  # seconds that a part may take
QUIET = [
    "+S",
    "1:1",
    "+SDcpu",
    "1:1",
    "+sbt",
    "db",
    "+sbwt",
    "none",
    "+sbwtdcpu",
    "none",
    "+sbwtdio",
    "none",
]


class Asked(Piped):
    """A program with pipes, whose processor time is read."""

    def __init__(self, command: list[str]) -> None:
        super().__init__(command, LONGEST)

    def spent(self) -> float:
        """The seconds of processor time of all threads, once none of them runs."""
        tasks = pathlib.Path(f"/proc/{self.program.pid}/task")
        before, now = -1, 0
        while now != before:
            before, now = now, sum(
                int((task / "schedstat").read_text().split()[0]) for task in tasks.iterdir()
            )
            time.sleep(0.01)
        return now / 1e9

    def read(self, size: int) -> bytes:
        found = self.program.stdout.read(size)
        if len(found) < size:
            stop(f"{self.name} ended, or took more than {LONGEST:.0f} s")
        return found


class Store(Asked):
    """The store, by packets."""

    def __init__(self, program: str) -> None:
        super().__init__([program, "--external", "--max-objects", "4294967295"])

    def ask(self, requests: list[bytes]) -> float:
        """The seconds of processor time for these requests, none of which may be refused."""
        before = self.spent()
        feeder = threading.Thread(target=self._feed, args=(requests,))
        feeder.start()
        for _ in requests:
            size, status = struct.unpack(">IB", self.read(5))
            if self.read(size - 1) and status != 0:
                stop(f"{self.name} refused a request with status {status}")
        feeder.join()
        return self.spent() - before

    def _feed(self, requests: list[bytes]) -> None:
        self.program.stdin.write(
            b"".join(struct.pack(">I", len(request)) + request for request in requests)
        )
        self.program.stdin.flush()


class Ets(Asked):
    """Erlang's ets on one scheduler, which does not wait busily."""

    def __init__(self, command: list[str]) -> None:
        super().__init__(
            [command[0], *QUIET, *(word for word in command[1:] if word != "-noinput")]
        )

        self.least = min(self._spent("nothing set 0") for _ in range(5))

    def ask(self, what: str, kind: str, count: int) -> float:
        """The seconds of processor time of these calls, without those of reading and printing the
        lines around them."""
        return self._spent(f"{what} {kind} {count}") - self.least

    def _spent(self, line: str) -> float:
        self._line(line, "ready")
        before = self.spent()
        self._line("", "done")
        return self.spent() - before

    def _line(self, given: str, wanted: str) -> None:
        self.program.stdin.write(f"{given}\n".encode())
        self.program.stdin.flush()
        found = self.program.stdout.readline().decode().strip()
        if found != wanted:
            stop(f"ets_bulk answered {found!r}")


@dataclass
class Sides:
    """The programs of a section, and how often each part is measured."""

    program: str
    turns: int

    def ours(self, prepared: list[bytes], asked: list[bytes]) -> list[float]:
        """The nanoseconds of these requests, after others that are not measured, of a new program
        each time."""
        found = []
        for _ in range(self.turns):
            with Store(self.program) as store:
                store.ask([SPAWN, *prepared])
                found.append(1e9 * store.ask(asked))
        return found

    def theirs(self, what: str, kind: str, count: int) -> list[float]:
        """The nanoseconds of the same in ets, or nothing without Erlang."""
        command = erlang("ets_bulk")
        if not command:
            return []
        with Ets(command) as ets:
            return [1e9 * ets.ask(what, kind, count) for _ in range(self.turns)]


def each(figures: list[float], count: int) -> list[float]:
    return [figure / count for figure in figures]
