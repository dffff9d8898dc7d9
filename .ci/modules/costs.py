"""Measures the CPU seconds of each crate's checks, and compares them with the budget."""
import os
import threading
import time

from tools import read

TICKS = os.sysconf("SC_CLK_TCK")


def words_of(pid):
    with open(f"/proc/{pid}/cmdline", "rb") as command:
        return command.read().decode(errors="replace").split("\0")


def is_prover(words):
    return words[0].endswith("/rattle") and "--crate-name" in words


class Costs:
    """Looks every two seconds at the provers that run below a folder, and keeps the last CPU time
    of each."""

    def __init__(self, folder):
        self.folder, self.seen = os.path.realpath(folder), {}
        threading.Thread(target=self.watch, daemon=True).start()

    def watch(self):
        while True:
            for pid in filter(str.isdigit, os.listdir("/proc")):
                try:
                    self.look(pid)
                except OSError:
                    pass
            time.sleep(2)

    def look(self, pid):
        words = words_of(pid)
        if not is_prover(words) or not os.readlink(f"/proc/{pid}/cwd").startswith(
            f"{self.folder}/"
        ):
            return
        # (after the name, which may have blanks, the state is the first field and the parent the
        # second; the four times, of itself and of its ended children, are the 12th to the 15th)
        fields = read(f"/proc/{pid}/stat").rpartition(")")[2].split()
        if is_prover(words_of(fields[1])):
            # (one job of a check: its parent has its time once it has ended)
            return
        name, kind = (
            words[words.index("--crate-name") + 1],
            "tests" if "--test" in words else "proofs",
        )
        self.seen[pid, name, kind] = sum(map(int, fields[11:15])) / TICKS

    def of(self, crate, kind):
        return sum(
            used for (_, name, what), used in self.seen.items() if (name, what) == (crate, kind)
        )


KINDS = ("proofs", "tests", "mutants")


def budget(file):
    """Returns the budget of each crate, from the lines `name proofs tests mutants` of a file."""
    rows = [line.split() for line in read(file).splitlines() if line and line[0] != "#"]
    return {name: dict(zip(KINDS, map(int, numbers))) for name, *numbers in rows}


def table(names, measured, allowed):
    """Returns a line for each crate with measured / budget, and the sums."""
    lines, sums = [
        f"{'CPU seconds / budget':30}" + "".join(f"{kind:>16}" for kind in KINDS)
    ], dict.fromkeys(KINDS, 0)
    for name in names:
        cells = ""
        for kind in KINDS:
            used, may = measured(name, kind), allowed.get(name, {}).get(kind, 0)
            sums[kind] += used
            cell = f"{used:.0f} / {may}" if used or may else ""
            cells += f"{cell:>15}{'!' if used > may and used >= 1 else ' '}"
        lines.append(f"{name:30}{cells}")
    lines.append(f"{'all':30}" + "".join(f"{sums[kind]:>15.0f} " for kind in KINDS))
    return "\n".join(line.rstrip() for line in lines)
