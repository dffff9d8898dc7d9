"""The quick check, which .ci/quick describes."""
import glob
import os
import re
import sys
import tempfile
import time

from parts import BEGAN, TOP, Part, cheap, end_on_signals, say, scripts_by_sources, side_by_side
from tools import crates_of

DIST = f"{TOP}/dist/x86_64-linux/ets_script"
# The list, its keys, and the terms below both.
PROVED = ["ets_term", "split_key", "node_list"]


def main():
    end_on_signals()
    crates = crates_of(TOP)
    proofs = {}
    for name in PROVED:
        below = [proofs[lower] for lower in crates[name].uses if lower in proofs]
        proofs[name] = Part(
            f"{name} proved", ["rt", "check", "--jobs", "1"], f"crates/{name}", after=below
        )
    on_dist = [
        Part(command.removeprefix(f"{TOP}/"), [command])
        for command in sorted(
            [*glob.glob(f"{TOP}/bindings/*/test"), *glob.glob(f"{TOP}/examples/*/test")]
        )
    ]
    on_dist += [Part("the snippets of the pages", [f"{TOP}/.ci/snippets", DIST])]
    tests = [
        Part(f"the tests of {name}", ["rt", "try", "--test", "--seconds", "300"], f"crates/{name}")
        for name in crates
        if name.startswith("test_")
    ]
    with tempfile.TemporaryDirectory(prefix="quick-") as logs:
        parts = [*proofs.values(), *cheap(), scripts_by_sources(logs), *on_dist, *tests]
        failed = side_by_side(parts, logs, len(os.sched_getaffinity(0)))
    count = lambda part: len(re.findall(r"^fn \S+: proved$", part.text, re.M))
    proved = [f"{name} ({count(part)} functions)" for name, part in proofs.items() if part.is_well]
    print(f"proved: {', '.join(proved)}")
    print("run, unproved: the scripts and the tests")
    print("run with the programs in dist/: the bindings and the snippets of the pages")
    print(
        f"not checked: the proofs of the other {len(crates) - len(proofs)} crates and the "
        "mutants; .ci/run checks them"
    )
    say(f"total: {time.time() - BEGAN:.0f} s")
    print(f"{len(parts) - len(failed)} passed, {len(failed)} failed", flush=True)
    return 1 if failed else 0


sys.exit(main())
