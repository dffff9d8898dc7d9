"""One check of a crate with some of its texts replaced, and the prover's report."""
import os
import re
import shutil
import signal
import subprocess
import sys
import tempfile
import threading
import time

from .crates import PARTS

# The verdict on a function with a goal of its own that is not proved. A call of an unproved
# function, by it or by another function of its cycle, is no goal of its own.
OWN = re.compile(
    r"^fn (\S+): (?:not proved\b|no proof: (?!(?:in `[^`]*`, of this cycle of calls: )?it calls ))"
)
GOAL = re.compile(r"^note: (src/\S+?):(\d+):\d+: it is not proved ")
# A goal without an answer. The group is the folder of proofs of its function.
UNANSWERED = re.compile(
    r"^fn \S+: no proof: expected answers in \./(proofs/\S+)/Answers\.antt; `search` did not "
    r"prove "
)
ERROR = re.compile(r"^(?:\./)?(\S+?):\d+:\d+: error: (?:(`[^`]*`): )?(.*)")
COMPILER = re.compile(r"^(?:\./)?(src/\S+?):(\d+):\d+: error")
# A proof that only names what another body took away says nothing about the contract.
NAMES_ONLY = re.compile(r"has no field|is not in scope|has no `|was not admitted")
UNREADABLE = re.compile(
    r"is not in scope|has no field|is no name|operand is missing|expected the end|cannot continue"
)
STALE = re.compile(r"module .Rattle-(\w+)-.*Run the lower steps again")


class Report:
    """The report of a check: `own` has the functions with goals of their own, each with the lines
    of these goals."""

    def __init__(self, status, text, wall, used):
        self.status, self.wall, self.used = status, wall, used
        self.lines = text.rstrip("\n").split("\n")
        self.is_stale = bool(STALE.search(text))
        # (a check of some functions gives a verdict on these only, not on the crate)
        self.is_judged = status == 1 and self.lines[-1].startswith(("logic=not-proved", "only="))
        self.is_proved = status == 0 and self.lines[-1].startswith("logic=proved")
        self.own, self.paths, self.proof_folders, goals = {}, [], [], []
        for line in self.lines:
            goal, error, own = GOAL.match(line), ERROR.match(line), OWN.match(line)
            if goal:
                goals.append((goal[1], int(goal[2])))
            elif error and error[1].startswith("proofs/") and not NAMES_ONLY.search(line):
                self.proof_folders.append(os.path.dirname(error[1]))
            elif line.startswith("fn "):
                self.paths.append(line[3:].partition(": ")[0])
                unanswered = UNANSWERED.match(line)
                self.proof_folders += [unanswered[1]] if unanswered else []
                if own:
                    self.own[own[1]] = goals
                goals = []

    def unreadable(self, changed):
        """Returns a line that says that a text could not be read, so that no contract was tried,
        or ''."""
        for line in self.lines:
            error = ERROR.match(line)
            if error and (error[1] in changed or error[1].startswith(("src/", "specs/"))):
                if not error[2] or UNREADABLE.search(re.sub(r"`[^`]*`", "", error[3])):
                    return line
        return ""

    def rejected_by_compiler(self):
        return [(found[1], int(found[2])) for found in map(COMPILER.match, self.lines) if found]


class Prover:
    """The kit's prover over the libraries that `rt ci` left in a tree."""

    def __init__(self, libraries):
        rt = shutil.which("rt") or sys.exit("mutants: the kit's command rt is not on the path")
        ask = lambda word: subprocess.run(
            [rt, word], stdout=subprocess.PIPE, text=True, check=True
        ).stdout.strip()
        self.kit, self.line, self.libraries = (
            os.path.dirname(ask("doc")),
            ask("version"),
            libraries,
        )
        # All checks are in the process group of this shell, which ends them when this program
        # ends, however it ends.
        reads, self.held = os.pipe()
        how = {
            "stdin": reads,
            "stdout": subprocess.DEVNULL,
            "stderr": subprocess.DEVNULL,
            "preexec_fn": os.setpgrp,
        }
        self.guard = subprocess.Popen(["sh", "-c", "read _; kill -9 0"], **how)
        self.starting = threading.Lock()

    def rlib(self, name):
        return f"{self.libraries}/crates/{name}/out/rlib"

    def words(self, crate, jobs, kept, only=()):
        own = {lower.name for lower in crate.below}
        words = [f"{self.kit}/bin/rattle", "check", "--crate-name", crate.name, crate.root()]
        for name in ["std", *crate.uses]:
            at = self.rlib(name) if name in own else f"{self.kit}/rlibs"
            words += ["--extern", f"{name}={at}/{name}.rlib"]
        for at in [f"{self.kit}/rlibs", *[self.rlib(lower.name) for lower in crate.below]]:
            words += ["-L", f"dependency={at}"]
        words += [
            "--antt-project",
            f"{self.kit}/rattle/logic/antt-project.json",
            "--logic-built",
            f"{self.kit}/logic_built",
        ]
        words += ["--jobs", str(jobs), "--links", f"{crate.name}="]
        words += ["--crate-type", "staticlib"] if crate.kind == "staticlib" else []
        words += ["--incremental", kept] if kept else []
        return words + [word for path in only for word in ("--only", path.partition("::")[2])]

    def check(self, crate, texts, jobs, kept, only=()):
        """Checks a copy of the crate with these texts: all of it, or only the functions of `only`
        and what they call. The check starts from the work in `kept`, if that is given."""
        with tempfile.TemporaryDirectory(
            prefix="mutant-"
        ) as room, tempfile.TemporaryFile() as out:
            for part in PARTS:
                if os.path.isdir(f"{crate.folder}/{part}"):
                    shutil.copytree(f"{crate.folder}/{part}", f"{room}/{part}")
            for path, text in texts.items():
                with open(f"{room}/{path}", "w", encoding="utf-8") as changed:
                    changed.write(text)
            began = time.time()
            with self.starting:
                how = {"stdin": subprocess.DEVNULL, "stdout": out, "stderr": subprocess.STDOUT}
                join = lambda: os.setpgid(0, self.guard.pid)
                ran = subprocess.Popen(
                    self.words(crate, jobs, kept, only), cwd=room, preexec_fn=join, **how
                )
            _, status, used = os.wait4(ran.pid, 0)
            ran.returncode = os.waitstatus_to_exitcode(status)
            out.seek(0)
            text = out.read().decode(errors="replace")
        if ran.returncode == -signal.SIGKILL and jobs > 1:
            # (most likely it ran out of memory)
            return self.check(crate, texts, 1, kept, only)
        return Report(ran.returncode, text, time.time() - began, used.ru_utime + used.ru_stime)
