"""The whole CI, which .ci/run describes."""
import glob
import os
import re
import resource
import subprocess
import sys
import tempfile
import time

from costs import Costs, budget, table
from dist import built
from parts import BEGAN, BUDGET, PROGRAM, TOP, Part, cheap, end_on_signals, say, side_by_side
from tools import Log, crates_of


POLITELY = ["nice", "-n", "10"]
# Copies the files of the tree, with what is not committed yet, but no ignored file and no mutant.
COPY = """set -o pipefail
git ls-files -z --cached --others --exclude-standard -- ':(exclude,glob)crates/*/must-fail/**' |
    tar cf - --ignore-failed-read --null -T - | tar xf - -C "$0" && git init -q "$0" """


def copy_without_edits(to):
    """Copies the tree, with a .git of its own and without must-fail folders, since `rt ci` would
    try mutants one by one."""
    if subprocess.run(["bash", "-c", COPY, to], cwd=TOP, stdin=subprocess.DEVNULL).returncode:
        sys.exit("run: the tree could not be copied")


def counted(pattern, text):
    """Returns the two numbers of a last line, or (0, 1) if it does not have that form."""
    found = re.fullmatch(pattern, text.rstrip("\n").rpartition("\n")[2])
    return (int(found[1]), int(found[2])) if found else (0, 1)


class Proved:
    """A crate, or its tests, as a part that others wait for, by the output of the proofs."""

    def __init__(self, name, log):
        self.name, self.log = name, log

    @property
    def is_well(self):
        return self.log.is_proved(self.name)


def names_with_refused_memory():
    """Returns the crates that have tests of refused memory."""
    return [
        crate.name
        for crate in crates_of(TOP).values()
        if any(path.endswith("/refused.rt") for path in crate.files("src"))
    ]


def on_the_program(copy, log):
    """Returns the parts that try the program, and the tests of refused memory, as soon as these
    are proved and built."""
    program, is_there = f"{copy}/{PROGRAM}/out/ets_script_cli", Proved("ets_script_cli", log)
    external = f"{copy}/crates/test_external/out/test_external"
    names = names_with_refused_memory()
    tests = [f"{copy}/crates/{name}/out/{name}_tests" for name in names]
    are_there = [Proved(f"{name}: its tests are", log) for name in names]

    def tried(name, command, show=None):
        return Part(name, [f"{TOP}/{command}", program], after=[is_there], show=show)

    return [
        tried("the scripts by the proved program", "tests/run"),
        tried("the snippets of the pages", ".ci/snippets"),
        tried("command lines and reasons", "tests/program/command_line"),
        tried("the examples, cut at every byte", "tests/program/cuts"),
        tried("failing devices", "tests/program/devices"),
        tried("packets", "tests/program/packets", r"^packets: "),
        tried("instructions of a line", "tests/program/instructions", r"^instructions: "),
        tried("refused memory", "tests/program/refusals", r"^refusals: "),
        Part(
            "refused memory in tests",
            [f"{TOP}/.ci/refusals", *tests],
            after=are_there,
            show=r"^refusals: ",
        ),
        Part(
            "terms compared with Erlang's",
            [f"{TOP}/.ci/external", external],
            after=[Proved("test_external", log)],
            show=r"^external: ",
        ),
    ]


def with_tests(folder):
    """Returns the folders of this folder that have a command `test`, each as a path from the
    top."""
    return sorted(
        os.path.dirname(os.path.relpath(path, TOP)) for path in glob.glob(f"{TOP}/{folder}/*/test")
    )


def on_the_files_of_dist(copy, log, words):
    """Returns the parts on the files of dist/, built from what is proved: the packages, the
    release and ./ets_script."""
    write = [word for word in words if word == "--write"]
    are_there = [Proved("ets_script_cli", log), Proved("ets_c", log)]
    dist = Part(
        "the files of dist", [f"{TOP}/.ci/dist", copy, *write], after=are_there, show=r"^dist: "
    )
    # (what is committed in dist/ must be of these sources, so its program can run the scripts
    # before anything is proved)
    committed = [
        Part("the sources of dist", [f"{TOP}/.ci/dist", "--sources"], ends_all=True),
        Part(
            "the scripts by the program in dist",
            [f"{TOP}/tests/run", f"{TOP}/dist/x86_64-linux/ets_script"],
            ends_all=True,
        ),
    ]
    folders = [*with_tests("bindings"), *with_tests("examples")]
    return [
        *([] if write else committed),
        dist,
        *(Part(folder, [f"{TOP}/{folder}/test", built(copy)], after=[dist]) for folder in folders),
        Part("the release", [f"{TOP}/.ci/release"], after=[dist], show=r"^release: "),
        Part(
            "./ets_script",
            [f"{TOP}/tests/program/wrapper", built(copy), "--build"],
            after=[dist],
            show=r"^wrapper: ",
        ),
    ]


def of_ci_itself():
    """Returns the parts that test CI itself."""
    order = [sys.executable, "-B", f"{TOP}/.ci/modules/order_test.py"]
    return [
        Part("the order of checks", order, ends_all=True),
        Part(
            "the program that tries mutants",
            [*POLITELY, f"{TOP}/.ci/mutants", "--self"],
            ends_all=True,
        ),
    ]


def parts_of(words, copy, logs):
    """Returns all parts: those that need no proof, the tests of CI itself, what is tried on the
    program; the proofs; and the mutants."""
    proving = [sys.executable, "-B", f"{TOP}/.ci/modules/proofs.py", copy]
    proofs = Part("every proof, test and program (rt ci)", proving, show=r"^rt: ")
    tried = [f"{TOP}/.ci/mutants", "--libraries", copy, "--after", proofs.file(logs), *words]
    mutants = Part("the mutants", [*POLITELY, *tried], show=r"^mutants: ")
    log = Log(proofs.file(logs))
    single = [*cheap(), *of_ci_itself()]
    single += [*on_the_program(copy, log), *on_the_files_of_dist(copy, log, words)]
    return single, proofs, mutants


def report(mutants, costs):
    """Returns the table of what each crate took, with its budget."""
    took = {
        name: float(used)
        for name, used in re.findall(r"^mutants of (\w+): (\d+) s", mutants.text, re.M)
    }
    measured = lambda name, kind: took.get(name, 0) if kind == "mutants" else costs.of(name, kind)
    return table(crates_of(TOP), measured, budget(BUDGET))


def main(words):
    end_on_signals()
    with tempfile.TemporaryDirectory(prefix="ci-") as logs:
        copy = f"{logs}/tree"
        os.mkdir(copy)
        copy_without_edits(copy)
        costs = Costs(copy)
        single, proofs, mutants = parts_of(words, copy, logs)
        all_parts = [*single, proofs, mutants]
        side_by_side(all_parts, logs, len(all_parts))
        counts = [(1, 0) if part.is_well else (0, 1) for part in single]
        counts += [
            counted(r"(\d+) passed, (\d+) failed", proofs.text),
            counted(r"(\d+) rejected, (\d+) not", mutants.text),
        ]
        print(report(mutants, costs))
    passed, failed = map(sum, zip(*counts))
    # (a part can fail without a count of its own)
    failed = failed or sum(not part.is_well for part in all_parts)
    used = resource.getrusage(resource.RUSAGE_CHILDREN)
    say(
        f"total: {(time.time() - BEGAN) / 60:.0f} minutes, "
        f"{(used.ru_utime + used.ru_stime) / 60:.0f} of CPU"
    )
    print(f"{passed} passed, {failed} failed", flush=True)
    return 1 if failed else 0


if __name__ == "__main__":
    sys.exit(main(sys.argv[1:]))
