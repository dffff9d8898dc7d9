"""Runs every proof, test and program of a tree: the kit's `rt ci`, with the longest chain of
crates first and on several processors.

    python3 proofs.py TREE

`rt ci` makes a task of each check, and the function `in_lanes` of its program decides which task
runs when. This file replaces that function, because the kit gives a proof a second processor only
when nearly all are idle, so that the longest chain of crates runs on one. What is checked, how,
and the verdict are the kit's. Three rules make the order:

- A task starts once those that it waits for have ended. The first to start is the one before the
longest chain of others, by the seconds of .ci/budget.txt.
- The head of the longest chain gets three jobs. The others get one, at a low priority, since a
check with more jobs takes more CPU time.
- A task starts only if at most one job a processor runs, and if memory for it is free. Only one
runs if there is never enough.

If the kit's program has another form, `rt ci` runs as it is. The check of a static library also
writes what it proved into its out/, from which .ci/dist builds the library without a second
proof."""
import importlib.machinery
import importlib.util
import os
import shutil
import subprocess
import sys
import traceback
from concurrent.futures import FIRST_COMPLETED, ThreadPoolExecutor, wait

from costs import budget
from parts import BUDGET, CHECKED

# The part of the memory that the kit expects for a check that is reserved here. Our larger checks
# took 0.4 to 0.7 of it, two small ones 0.7 and 0.8.
OF_EXPECTED = 0.6
# The seconds of a check that the budget does not have, and of what CI runs after a check: what it
# tries on the program.
UNKNOWN, AFTER = 60, {("ets_script_cli", "proof"): 300}
# The jobs of a head. With one, two, three and four jobs the check of ets_term took 158, 118, 86
# and 91 s, and 162, 186, 199 and 235 s of CPU time (4 processors, nothing else running).
HEAD_JOBS = 3


class Order:
    """Decides which task runs next. A task is what it waits for, its lines (none: it has no work),
    its memory, and its call."""

    def __init__(self, tasks, seconds, processors, memory):
        self.tasks, self.processors, self.memory = tasks, processors, memory
        known = (
            lambda name, kind: seconds.get(name, {}).get("proofs" if kind == "proof" else kind)
            or UNKNOWN
        )
        self.seconds = {key: known(*key) if task[1] else 0 for key, task in tasks.items()}
        self.chain = {key: own + AFTER.get(key, 0) for key, own in self.seconds.items()}
        # (a task comes after those that it waits for)
        for key in reversed(tasks):
            for below in tasks[key][0]:
                self.chain[below] = max(self.chain[below], self.seconds[below] + self.chain[key])
        self.waiting = sorted(tasks, key=self.chain.get, reverse=True)
        # (each running task, with whether it is a head, and each ended one, with its result)
        self.running, self.ended = {}, {}

    def is_head(self, key):
        return 4 * self.chain[key] >= 3 * self.chain[self.waiting[0]] and not any(
            self.running.values()
        )

    def may_start(self, key):
        if not self.ended.keys() >= set(self.tasks[key][0]):
            return False
        busy = [other for other in self.running if self.seconds[other]]
        if not busy or not self.seconds[key]:
            return True
        memory = OF_EXPECTED * sum(self.tasks[task][2] for task in [*busy, key])
        return (
            memory <= self.memory
            and sum(self.jobs(self.running[task]) for task in busy) <= self.processors
        )

    def start(self):
        """Starts the next task, and returns it with whether it is a head; or returns None if none
        may start."""
        for key in filter(self.may_start, self.waiting):
            self.running[key] = self.seconds[key] > 0 and self.is_head(key)
            self.waiting.remove(key)
            return key, self.running[key]
        return None

    def jobs(self, is_head):
        return max(1, min(HEAD_JOBS, self.processors - 1)) if is_head else 1

    def end(self, key, result=None):
        del self.running[key]
        self.ended[key] = result


def in_order(order):
    """Runs all tasks and returns the result of each. The threads of the second pool, and what they
    start, have a low priority."""
    heads, others = ThreadPoolExecutor(), ThreadPoolExecutor(
        initializer=os.setpriority, initargs=(os.PRIO_PROCESS, 0, 10)
    )
    running = {}
    while order.waiting or running:
        while started := order.start():
            key, is_head = started
            running[
                (heads if is_head else others).submit(
                    order.tasks[key][3], order.ended, order.jobs(is_head)
                )
            ] = key
        for future in wait(running, return_when=FIRST_COMPLETED).done:
            order.end(running.pop(future), future.result())
    return order.ended


def program():
    """Returns the kit's program `rt` as a module, or None if it does not have the expected
    form."""
    file = os.path.realpath(
        shutil.which("rt")
        or sys.exit("proofs: `rt` not found: put the bin/ of the Rattle kit on PATH")
    )
    try:
        loader = importlib.machinery.SourceFileLoader("rt", file)
        rt = importlib.util.module_from_spec(importlib.util.spec_from_loader("rt", loader))
        loader.exec_module(rt)
        return (
            rt
            if rt.in_lanes.__code__.co_argcount == 1 and callable(rt.main) and callable(rt.free)
            else None
        )
    except (AttributeError, SyntaxError, ValueError):
        return None


def leave_checked(rt):
    """Makes the kit's check of a static library write what it proved, which `rt ci` discards."""
    own = rt.Crate.ci

    def ci(crate, flags, tests):
        if tests or not crate.is_static:
            return own(crate, flags, tests)
        return crate.prove(
            ["check", *crate.words(flags, keeps=False), "-o", f"{crate.folder}/{CHECKED}"]
        )

    rt.Crate.ci = ci


def main(tree):
    os.chdir(tree)
    rt = program()
    if rt is None:
        return subprocess.run(["rt", "ci"], stdin=subprocess.DEVNULL).returncode
    own = rt.in_lanes

    def in_lanes(tasks):
        if any(len(task) != 4 for task in tasks.values()):
            return own(tasks)
        return in_order(
            Order(tasks, budget(BUDGET), len(os.sched_getaffinity(0)), 0.75 * rt.free())
        )

    rt.in_lanes = in_lanes
    leave_checked(rt)
    return rt.main(["ci"])


if __name__ == "__main__":
    try:
        sys.exit(main(os.path.realpath(sys.argv[1])))
    except Exception:
        traceback.print_exc()
        # (other parts wait for the last line, and this process would wait for the checks that
        # still run)
        print("0 passed, 1 failed", flush=True)
        os._exit(1)
