"""Tests the order in which checks run (proofs.py), on made-up crates."""
import sys
import types

from parts import CHECKED
from proofs import Order, in_order, leave_checked

# Each crate, those below it, and the seconds of its proof and of its tests: a chain of three, two
# short ones, and one with tests.
CRATES = {
    "low": ((), 100, 0),
    "side": (("low",), 50, 0),
    "other": (("low",), 40, 0),
    "middle": (("low",), 400, 0),
    "tests": (("low",), 0, 200),
    "high": (("low", "middle"), 300, 0),
    "top": (("low", "middle", "side", "other", "high"), 10, 0),
}
SECONDS = {name: {"proofs": proofs, "tests": tests} for name, (_, proofs, tests) in CRATES.items()}


def order_of(processors, memory, call=None):
    """Returns the order of checks that need a memory of 1 each."""
    tasks = {}
    for name, (below, proofs, tests) in CRATES.items():
        waits = [(lower, "proof") for lower in below]
        tasks[name, "proof"] = (waits, proofs, 1, call)
        tasks[name, "tests"] = (waits, tests, 1, call)
        tasks[name, "edits"] = ([(name, "proof"), (name, "tests")], 0, 1, call)
    return Order(tasks, SECONDS, processors, memory)


def turns(processors, memory=100):
    """Returns what runs at the same time, turn by turn, each crate with its jobs; all checks of a
    turn end with it."""
    order, seen = order_of(processors, memory), []
    while order.waiting or order.running:
        while order.start():
            pass
        busy = {
            key: order.jobs(is_head)
            for key, is_head in order.running.items()
            if order.seconds[key]
        }
        seen += [{name: jobs for (name, _), jobs in busy.items()}] if busy else []
        for key in [*order.running]:
            order.end(key)
    return seen


class Made:
    """A crate of the kit's program, which returns the words of what it should prove."""

    folder, is_static = "/made", True

    def words(self, flags, keeps):
        return [*flags, "keeps"] if keeps else flags

    def prove(self, words):
        return words

    def ci(self, flags, tests):
        return "the kit's own"


faults = []


def expect(found, wanted, what):
    if found != wanted:
        faults.append(what)
        print(f"{what}: {found}, expected {wanted}", file=sys.stderr)


def test_turns():
    chain = [{"low": 3}, {"middle": 3, "tests": 1, "side": 1}, {"high": 3, "other": 1}, {"top": 3}]
    expect(turns(4), chain, "a head has three jobs, others one, and at most four jobs run")
    singly = {"middle": 1, "tests": 1, "side": 1}
    expect(turns(2)[1], singly, "on two processors each check has one job")
    expect(turns(4, 1.4)[1], {"middle": 3, "tests": 1}, "a check without memory waits")
    expect(len(turns(4, 0.1)), 7, "one check runs, however little memory there is")


def test_checks():
    def call(given, jobs):
        return dict(given), jobs

    def fails(given, jobs):
        raise KeyError("planted")

    given = in_order(order_of(4, 100, call))
    expect(len(given), 3 * len(CRATES), "each check is made once")
    below = {name for name, _ in given["top", "proof"][0]}
    expect({"middle", "high", "side"} <= below, True, "a check has what it waits for")
    try:
        in_order(order_of(4, 100, fails))
        expect("nothing", "an error", "an error in a check is raised")
    except KeyError:
        pass


def test_static_library():
    rt, other = types.SimpleNamespace(Crate=Made), Made()
    other.is_static = False
    leave_checked(rt)
    words = ["check", "--jobs", "2", "-o", f"/made/{CHECKED}"]
    expect(Made().ci(["--jobs", "2"], False), words, "a static library's check is written")
    own = [other.ci([], False), Made().ci([], True)]
    expect(own, ["the kit's own"] * 2, "no other check is touched")


def main():
    for test in test_turns, test_checks, test_static_library:
        test()
    print(f"the order of checks: {len(faults)} faults")
    return 1 if faults else 0


if __name__ == "__main__":
    sys.exit(main())
