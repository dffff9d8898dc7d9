"""How programs are run and timed, and how figures are shown."""

import datetime
import hashlib
import os
import pathlib
import re
import subprocess
import threading
import time
from dataclasses import dataclass, field
from typing import Self

from building import stop

LIMIT = 60.0  # seconds that one run of a workload may take
Figures = dict[tuple[str, str], list[float]]


@dataclass
class Runs:
    """The times of one program over one input, wall and CPU, in seconds, and its peaks of memory,
    in bytes; `failed` once a run failed or took too long."""

    wall: list[float] = field(default_factory=list)
    cpu: list[float] = field(default_factory=list)
    peak: list[float] = field(default_factory=list)
    failed: bool = False

    def show(self) -> str:
        """The best wall time, by how much the slowest run was above it, and the best CPU time."""
        if self.failed:
            return f"none in {LIMIT:.0f} s"
        best = min(self.wall)
        return f"{best:.3f} s +{100 * (max(self.wall) / best - 1):.0f}% cpu {min(self.cpu):.3f}"


def timed(runs: Runs, command: list[str], script: pathlib.Path, answers: pathlib.Path) -> None:
    """One run more, unless one failed before. The kernel tells its CPU time, and a timer ends a
    run that hangs."""
    if runs.failed:
        return
    with open(script, "rb") as given, open(answers, "wb") as taken:
        start = time.perf_counter()
        process = subprocess.Popen(command, stdin=given, stdout=taken, stderr=subprocess.DEVNULL)
        timer = threading.Timer(LIMIT, process.kill)
        timer.start()
        _, status, used = os.wait4(process.pid, 0)
        wall = time.perf_counter() - start
        process.returncode = os.waitstatus_to_exitcode(status)
        timer.cancel()
    runs.failed = process.returncode != 0
    runs.wall.append(wall)
    runs.cpu.append(used.ru_utime + used.ru_stime)
    runs.peak.append(1024 * used.ru_maxrss)


class Piped:
    """A program with pipes, which a timer ends after some seconds."""

    def __init__(self, command: list[str], longest: float, bufsize: int = -1) -> None:
        self.name = command[0]
        self.program = subprocess.Popen(
            command, stdin=subprocess.PIPE, stdout=subprocess.PIPE, bufsize=bufsize
        )
        self.guard = threading.Timer(longest, self.program.kill)
        self.guard.start()

    def __enter__(self) -> Self:
        return self

    def __exit__(self, *_: object) -> None:
        self.guard.cancel()
        self.program.stdin.close()
        self.program.stdout.close()
        self.program.wait()


class Talk(Piped):
    """A program that is asked through pipes, each part of a script timed by itself."""

    def __init__(self, command: list[str]) -> None:
        super().__init__(command, 5 * LIMIT, bufsize=0)

    def ask(self, lines: list[str]) -> tuple[float, int, str]:
        """The seconds from the first line's way in to the end of the last answer; the answers'
        length and checksum."""
        text = "".join(f"{line}\n" for line in lines).encode()
        left, length, checksum = len(lines), 0, hashlib.sha256()
        feeder = threading.Thread(target=self._feed, args=(memoryview(text),))
        start = time.perf_counter()
        feeder.start()
        while left > 0:
            answers = self.program.stdout.read(1 << 16)
            if not answers:
                stop(f"{self.name} ended before its answers")
            left -= answers.count(b"\n")
            length += len(answers)
            checksum.update(answers)
        spent = time.perf_counter() - start
        feeder.join()
        return spent, length, checksum.hexdigest()

    def _feed(self, text: memoryview) -> None:
        while text:
            text = text[self.program.stdin.write(text) :]


def least(commands: list[list[str]], times: int) -> Figures:
    """The least of each figure and the greatest, of this many interleaved runs. A command prints
    lines of WHO OPERATION FIGURE."""
    found: Figures = {}
    for _ in range(times):
        for command in commands:
            for line in lines_of(command):
                who, operation, figure = line.rsplit(" ", 2)
                low, high = found.get((who, operation), [float("inf"), 0.0])
                found[who, operation] = [min(low, float(figure)), max(high, float(figure))]
    return found


def lines_of(command: list[str]) -> list[str]:
    result = subprocess.run(
        command, stdin=subprocess.DEVNULL, capture_output=True, text=True, timeout=10 * LIMIT
    )
    if result.returncode != 0 or "wrong" in result.stdout:
        stop(f"{' '.join(command)} went wrong: {(result.stdout + result.stderr).strip()[-500:]}")
    return result.stdout.splitlines()


def spread(figure: list[float] | None) -> str:
    """The best of a figure, and by how much the worst was above it."""
    if not figure:
        return "no figure"
    low, high = min(figure), max(figure)
    return f"{low:.0f}" if low == high else f"{low:.0f} +{100 * (high / low - 1):.0f}%"


def ratio(ours: list[float] | None, theirs: list[float] | None) -> str:
    return f"{min(ours) / min(theirs):.2f}" if ours and theirs and min(theirs) else "-"


def machine() -> str:
    processor = re.search(r"model name\s*: (.*)", open("/proc/cpuinfo").read())
    name = processor.group(1) if processor else "unknown processor"
    return f"{datetime.date.today()}, {name}, {os.cpu_count()} cores, load {load()}"


def load() -> str:
    return f"{os.getloadavg()[0]:.1f}"


def print_table(rows: list[list[str]]) -> None:
    """Prints a table, and the load after it."""
    widths = [max(len(row[i]) for row in rows) for i in range(len(rows[0]))]
    print()
    for row in rows:
        print("  ".join(cell.ljust(width) for cell, width in zip(row, widths)).rstrip())
    print(f"(load {load()})", flush=True)
