"""Decides which crate has its mutants tried, and when."""
import os
import re
import threading
import time

from .crates import read


def lanes():
    """Returns one lane a processor, if each has 2 GB of free memory."""
    free = int(re.search(r"MemAvailable:\s+(\d+)", read("/proc/meminfo"))[1]) // 2_000_000
    return max(1, min(len(os.sched_getaffinity(0)), free))


def fate(name, text):
    """Returns whether the output of `rt ci` says so far that a crate is proved, in this run or in
    one before; None if it says nothing yet. A name may be that of a crate's tests, `NAME: its
    tests are`."""
    if re.search(rf"^rt: {name} (proved$|is kept: )|^\d+ passed, 0 failed$", text, re.M):
        return True
    has_ended = re.search(rf"^rt: {name} NOT PROVED|^\d+ passed, \d+ failed$", text, re.M)
    return False if has_ended else None


class Log:
    """The output of `rt ci` as it runs; without a file, every crate counts as proved."""

    def __init__(self, file):
        # (its length when it was last read, the text, and what that says of crates)
        self.file, self.known = file, (0, "", {})

    def is_proved(self, name):
        """Returns whether a crate is proved, or None if `rt ci` has not said yet."""
        if not self.file:
            return True
        size = os.path.getsize(self.file) if os.path.isfile(self.file) else 0
        if size != self.known[0]:
            self.known = size, read(self.file), {}
        _, text, fates = self.known
        if name not in fates:
            fates[name] = fate(name, text)
        return fates[name]

    def paths(self, name):
        """Returns the prover's names of a crate's functions, as far as `rt ci` has printed
        them."""
        text = read(self.file) if self.file else ""
        return re.findall(rf"^fn ({name}::\S+): ", text, re.M)


class Lanes:
    """Crates in parallel: of those that are proved, the one with most work first."""

    def __init__(self, todo, log, number):
        self.todo, self.log, self.number = todo, log, number
        self.running, self.lock = 0, threading.Lock()

    def take(self):
        """Returns a crate to try and whether it is proved, or None if none is left."""
        while True:
            with self.lock:
                for crate in self.todo:
                    is_proved = self.log.is_proved(crate.name)
                    if is_proved is not None:
                        self.todo.remove(crate)
                        self.running += 1
                        return crate, is_proved
                if not self.todo:
                    return None
            time.sleep(1)

    def jobs(self):
        """Returns the number of jobs for a check: two if there are lanes that no other crate
        needs. More would end sooner, but take more CPU time."""
        with self.lock:
            return max(1, min(2, self.number // max(1, self.running + len(self.todo))))

    def run(self, work):
        """Lets each lane work on one crate after another."""

        def lane():
            while (taken := self.take()) is not None:
                try:
                    work(*taken)
                finally:
                    with self.lock:
                        self.running -= 1

        threads = [threading.Thread(target=lane) for _ in range(self.number)]
        for thread in threads:
            thread.start()
        for thread in threads:
            thread.join()
