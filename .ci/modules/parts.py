"""The parts of a CI run: commands that run in parallel, each with its output in a file and its
time on the screen."""
import os
import re
import shutil
import signal
import subprocess
import threading
import time

from tools import read

TOP = os.path.realpath(f"{os.path.dirname(os.path.realpath(__file__))}/../..")
PROGRAM = "crates/ets_script_cli"
# The budget of each crate.
BUDGET = f"{TOP}/.ci/budget.txt"
# Where the check of a static library leaves its result, from which the library is built.
CHECKED = "out/checked"
BEGAN = time.time()
# Lines that the report of a failure leaves out.
PROVED = re.compile(r"(fn|struct|enum|impl|trait) \S+: proved$|statements ")
running, is_over = [], threading.Event()


def say(text):
    # (in one piece, since parts print in parallel)
    print(f"{(time.time() - BEGAN) / 60:5.1f} min  {text}\n", end="", flush=True)


class Part:
    """A command in a folder of the tree. It waits until the parts in `after` have passed. If a
    part with `ends_all` fails, all others are stopped: it is cheap, and they are not."""

    def __init__(self, name, words, folder="", after=(), show=None, ends_all=False):
        self.name, self.words, self.folder, self.after, self.show, self.ends_all = (
            name,
            words,
            folder,
            after,
            show,
            ends_all,
        )
        self.is_well, self.is_ended, self.text = None, False, ""

    def file(self, logs):
        """Returns the file of its output in the folder `logs`."""
        return f"{logs}/{re.sub(r'[^a-z_]+', '-', self.name)}"

    def run(self, logs):
        """Runs it and prints the lines of its output that `show` matches as they come."""
        file, began = self.file(logs), time.time()
        how = {
            "cwd": os.path.join(TOP, self.folder),
            "stdin": subprocess.DEVNULL,
            "stderr": subprocess.STDOUT,
            "process_group": 0,
        }
        with open(file, "w", encoding="utf-8") as output:
            self.ran = subprocess.Popen(self.words, stdout=output, **how)
        running.append(self)
        if is_over.is_set():
            end_running()
        follower = threading.Thread(target=self.follow, args=(file,))
        follower.start()
        _, status, used = os.wait4(self.ran.pid, 0)
        self.ran.returncode = os.waitstatus_to_exitcode(status)
        follower.join()
        self.text, self.is_well = read(file), self.ran.returncode == 0
        word = "ok" if self.is_well else "stopped" if self.is_ended else "FAILED"
        say(
            f"{self.name}: {word}, {time.time() - began:.0f} s, "
            f"{used.ru_utime + used.ru_stime:.0f} s of CPU"
        )

    def follow(self, file):
        rest, has_ended = "", not self.show
        with open(file, encoding="utf-8", errors="replace") as output:
            while not has_ended:
                has_ended = self.ran.returncode is not None
                *whole, rest = (rest + output.read()).split("\n")
                for line in whole:
                    if re.search(self.show, line):
                        say(line[:300])
                time.sleep(0.5)

    def end_of_text(self):
        shown = [line for line in self.text.rstrip("\n").split("\n") if not PROVED.match(line)]
        return f"== {self.name}\n" + "\n".join(shown[-200:])


def scripts(to):
    """Copies the scripts into one folder, so that the program is compiled once for all: the
    examples, and those of tests/scripts with both hash functions."""
    for prefix, folder, words in (
        ("", "examples", ""),
        ("test_", "tests/scripts", ""),
        ("test_with_one_hash_", "tests/scripts", "--hash\nsame\n"),
    ):
        files = [
            name
            for name in os.listdir(f"{TOP}/{folder}")
            if name.endswith((".ets", ".ets.args", ".ets.stdout"))
        ]
        for name in files:
            shutil.copy(f"{TOP}/{folder}/{name}", f"{to}/{prefix}{name}")
        for name in files if words else ():
            if name.endswith(".ets"):
                with open(f"{to}/{prefix}{name}.args", "a", encoding="utf-8") as args:
                    args.write(words)


def cheap():
    """Returns the parts that need no proof and no program: the tables of calls, the pages, the
    list of definitions and the layout of Python."""
    return [
        Part("the tables of calls", [f"{TOP}/.ci/names"], ends_all=True),
        Part("the pages and comments", [f"{TOP}/.ci/prose"], ends_all=True),
        Part("the check of pages itself", [f"{TOP}/.ci/prose", "--self"], ends_all=True),
        Part("the list of definitions", [f"{TOP}/.ci/definitions"], ends_all=True),
        Part("the layout of Python", [f"{TOP}/.ci/format"], ends_all=True),
    ]


def scripts_by_sources(logs):
    """Returns the part that runs the scripts by the sources, compiled unproved and with
    sanitizers."""
    os.mkdir(f"{logs}/scripts")
    scripts(f"{logs}/scripts")
    return Part(
        "the scripts",
        ["rt", "try", "--seconds", "300", "--cases", f"{logs}/scripts"],
        PROGRAM,
        ends_all=True,
    )


def side_by_side(parts, logs, at_once):
    """Runs parts in parallel, at most `at_once`, and returns those that failed or never ran."""
    waiting, lock = list(parts), threading.Lock()

    def take():
        with lock:
            for part in waiting:
                if all(each.is_well for each in part.after):
                    waiting.remove(part)
                    return part
            return None

    def lane():
        while waiting:
            part = take()
            if part:
                part.run(logs)
                if part.ends_all and not part.is_well:
                    waiting.clear()
                    is_over.set()
                    end_running()
            elif all(each.is_well is not None for each in parts if each not in waiting):
                return
            else:
                time.sleep(0.5)

    lanes = [threading.Thread(target=lane) for _ in range(at_once)]
    for thread in lanes:
        thread.start()
    for thread in lanes:
        thread.join()
    failed = [part for part in parts if not part.is_well]
    for part in failed:
        if part.text and not part.is_ended:
            print(part.end_of_text(), flush=True)
    return failed


def end_running():
    """Stops every running part with all processes that it started."""
    for part in running:
        if part.ran.returncode is None:
            part.is_ended = True
            try:
                os.killpg(part.ran.pid, signal.SIGTERM)
            except OSError:
                pass


def end_with_all(*_):
    end_running()
    os._exit(1)


def end_on_signals():
    for number in (signal.SIGTERM, signal.SIGINT, signal.SIGHUP):
        signal.signal(number, end_with_all)
