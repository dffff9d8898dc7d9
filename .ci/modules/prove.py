"""Proves the program's crates in the order of CI's checks, and keeps the program: ./ets_script
--prove.

It works on a copy without the mutants, which CI checks. The kit keeps each crate as soon as it is
proved, so the next run goes on where one was stopped."""
import hashlib
import os
import shutil
import signal
import subprocess
import sys
import tempfile
import time

from costs import budget
from parts import BUDGET, PROGRAM, TOP
from tools import PARTS, Log, crates_of, read

OUT = f"{TOP}/{PROGRAM}/out"
# The first guess of how fast a run goes, as the part of all processors' time in which proofs run,
# and the seconds of measured time that weigh as much.
GUESS, GUESS_SECONDS = 0.7, 300


def say(text):
    print(f"ets_script: {text}", file=sys.stderr, flush=True)


def copy_of(crates, to):
    """Copies what the proofs of these crates read."""
    os.mkdir(f"{to}/.git")
    shutil.copy(f"{TOP}/HANDLES", to)
    with open(f"{to}/crates.txt", "w", encoding="utf-8") as listed:
        listed.writelines(f"{crate.name}: {' '.join(crate.uses)}\n" for crate in crates)
    for crate in crates:
        for part in [*PARTS, "stdin", "stdout"]:
            if os.path.isdir(f"{crate.folder}/{part}"):
                shutil.copytree(f"{crate.folder}/{part}", f"{to}/crates/{crate.name}/{part}")
            elif os.path.isfile(f"{crate.folder}/{part}"):
                shutil.copy(f"{crate.folder}/{part}", f"{to}/crates/{crate.name}")


class Progress:
    """How many crates are proved, and how long the others will take."""

    def __init__(self, crates, log):
        allowed = budget(BUDGET)
        self.weights = {
            crate.name: allowed.get(crate.name, {}).get("proofs", 0) or 60 for crate in crates
        }
        self.log, self.began = Log(log), time.time()

    def line(self):
        passed = time.time() - self.began
        proved = [name for name in self.weights if self.log.is_proved(name)]
        text = self.log.known[1]
        done = sum(self.weights[name] for name in proved if f"rt: {name} is kept: " not in text)
        left = sum(self.weights[name] for name in self.weights if name not in proved)
        guess = GUESS * len(os.sched_getaffinity(0))
        left *= (passed + GUESS_SECONDS) / (done + guess * GUESS_SECONDS)
        count = f"{len(proved)} of {len(self.weights)} crates proved"
        return f"{count}, {passed / 60:.0f} min, about {left / 60:.0f} min left"


def follow(ran, progress):
    """Shows the progress until the proof has ended: each second at a terminal, else after each
    crate."""
    is_terminal, shown = sys.stderr.isatty(), ""
    while ran.poll() is None:
        line = progress.line()
        if is_terminal:
            print(f"\rets_script: {line:70}", end="", file=sys.stderr, flush=True)
        elif line.split(",")[0] != shown:
            shown = line.split(",")[0]
            say(line)
        time.sleep(1)
    print(f"\rets_script: {progress.line():70}", file=sys.stderr)


def proved(tree, crates):
    """Proves the crates of a copy and keeps the log. Returns whether all passed."""
    log = f"{OUT}/prove.log"
    with open(log, "w", encoding="utf-8") as output:
        how = {
            "stdin": subprocess.DEVNULL,
            "stdout": output,
            "stderr": subprocess.STDOUT,
            "start_new_session": True,
        }
        ran = subprocess.Popen([sys.executable, "-B", f"{TOP}/.ci/modules/proofs.py", tree], **how)
    try:
        follow(ran, Progress(crates, log))
    finally:
        if ran.poll() is None:
            os.killpg(ran.pid, signal.SIGTERM)
            ran.wait()
    return ran.returncode == 0


def keep(program, sources):
    """Keeps a proved program with the kit's line, by the checksum of its sources."""
    to = f"{OUT}/proved/{sources}"
    os.makedirs(to, exist_ok=True)
    shutil.copy(program, f"{to}/new")
    os.replace(f"{to}/new", f"{to}/ets_script")
    kit = subprocess.run(["rt", "version"], stdout=subprocess.PIPE, text=True, check=True).stdout
    with open(f"{to}/kit", "w", encoding="utf-8") as written:
        written.write(kit)


def compare(program, sources):
    """Compares a proved program with that of dist/, if that has the same sources."""
    with open(program, "rb") as built:
        line = f"{hashlib.sha256(built.read()).hexdigest()}  ets_script\n"
    file = f"{TOP}/dist/x86_64-linux/SHA256SUMS"
    recorded = read(file) if os.path.isfile(file) else ""
    if f"# sources {sources}\n" not in recorded:
        say("proved: ./ets_script runs the new program")
    elif line in recorded:
        say("proved: the program is that of dist/, byte for byte")
    else:
        say(
            "proved, but dist/ has another program of the same sources: compare the kit's line in "
            "dist/x86_64-linux/SHA256SUMS with 'rt version'"
        )
        return 1
    return 0


def main():
    program = crates_of(TOP)["ets_script_cli"]
    crates = [*program.below, program]
    say(f"proving {len(crates)} crates; Ctrl-C stops it, and the next --prove goes on")
    with tempfile.TemporaryDirectory(prefix="prove-") as tree:
        copy_of(crates, tree)
        sources = subprocess.run(
            [f"{TOP}/dist/sources", TOP], stdout=subprocess.PIPE, text=True, check=True
        ).stdout.strip()
        try:
            if not proved(tree, crates):
                print(*read(f"{OUT}/prove.log").splitlines()[-30:], sep="\n", file=sys.stderr)
                say("not proved: crates/ets_script_cli/out/prove.log has the prover's report")
                return 1
        except KeyboardInterrupt:
            print(file=sys.stderr)
            say("stopped; the crates proved so far are kept: ./ets_script --prove goes on")
            return 130
        made = f"{tree}/{PROGRAM}/out/ets_script_cli"
        keep(made, sources)
        return compare(made, sources)


if __name__ == "__main__":
    signal.signal(signal.SIGTERM, lambda *_: sys.exit(143))
    sys.exit(main())
