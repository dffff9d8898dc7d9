"""The shell `python -m yoyoash`, and the command `ets_script` of the wheel."""

import os
import pathlib
import pty
import select
import signal
import stat
import subprocess
import sys
import tempfile
import unittest

from helpers import LIBRARY, PROGRAM, REPOSITORY
from yoyoash import __version__, finding, shell

TOP = os.path.dirname(os.path.dirname(finding.__file__))
SHELL = [sys.executable, "-B", "-m", "yoyoash"]
COMMAND = [sys.executable, "-B", "-c", "from yoyoash.command import main; main()"]
PROMPT = b"\r\n> "


class Terminal:
    """A shell at a terminal of its own."""

    def __init__(self, home, **variables):
        kept = {name: it for name, it in os.environ.items() if name != "YOYOASH_HISTORY"}
        self.pid, self._at = pty.fork()
        if self.pid == 0:
            # (a job that a shell starts in the background ignores it)
            signal.signal(signal.SIGINT, signal.SIG_DFL)
            os.chdir(TOP)
            os.execve(sys.executable, SHELL, kept | {"HOME": str(home), "TERM": "dumb"} | variables)
        self.printed = b""

    def until(self, mark):
        """Waits until the shell has printed this. Returns all since the last time."""
        while mark not in self.printed:
            if not select.select([self._at], [], [], 60)[0]:
                raise TimeoutError(self.printed)
            try:
                self.printed += os.read(self._at, 65_536)
            except OSError:
                raise EOFError(self.printed) from None
        end = self.printed.index(mark) + len(mark)
        found, self.printed = self.printed[:end], self.printed[end:]
        return found

    def type(self, keys, mark=PROMPT):
        """Types these keys. Returns what the shell prints up to the mark."""
        os.write(self._at, keys)
        return self.until(mark)

    def interrupt(self, keys, mark=PROMPT):
        """Types these keys and Ctrl-C. Types Ctrl-C again after each second without output, at most 30 times: a signal
        that comes between the prompt and the shell's read does not wake the read. Returns what the shell prints."""
        os.write(self._at, keys + b"\x03")
        tries = 30
        while mark not in self.printed and tries:
            if select.select([self._at], [], [], 1)[0]:
                self.printed += os.read(self._at, 65_536)
            else:
                tries -= 1
                os.write(self._at, b"\x03")
        return self.until(mark)

    def end(self):
        """Reads to the end. Returns the rest and the exit status."""
        try:
            self.until(b"\0")
        except EOFError as ended:
            rest = ended.args[0]
        os.close(self._at)
        return rest, os.waitstatus_to_exitcode(os.waitpid(self.pid, 0)[1])


@unittest.skipUnless(LIBRARY, "no libyoyoash.so found: set YOYOASH_LIBRARY")
class AtATerminal(unittest.TestCase):
    def setUp(self):
        folder = tempfile.TemporaryDirectory()
        self.addCleanup(folder.cleanup)
        self.home = pathlib.Path(folder.name)
        self.history = self.home / ".yoyoash_history"

    def begin(self, **variables):
        it = Terminal(self.home, **variables)
        it.until(PROMPT)
        return it

    def test_lines_replies_reasons_and_help(self):
        it = self.begin()
        self.assertIn(b"<0.0.0>", it.type(b"spawn anna\n"))
        self.assertIn(b"\r\nt\r\n", it.type(b"anna new(t,[named_table])\n"))
        self.assertIn(b"** badarg (argument 1: no such table)", it.type(b"anna lookup(u,1)\n"))
        self.assertIn(b"** syntax 15 (", it.type(b"anna lookup(t,1.5)\n"))
        self.assertIn(b"Returns the list of the key's objects", it.type(b"help lookup\n"))
        self.assertIn(b"spawn anna ", it.type(b"help\n"))
        self.assertNotIn(b"**", it.type(b"% a comment\n") + it.type(b"  \n"))
        # Ctrl-C drops the line, and Ctrl-D leaves.
        self.assertNotIn(b"**", it.interrupt(b"anna del"))
        os.write(it._at, b"\x04")
        self.assertEqual(it.end(), (b"\r\n", 0))

    @unittest.skipUnless(shell.readline, "this Python has no readline")
    def test_the_history_lasts_and_only_its_user_reads_it(self):
        it = self.begin()
        for line in b"spawn anna\n", b"anna new(t,[])\n":
            it.type(line)
        # The lines are in the file before the shell ends.
        self.assertEqual(self.history.read_text(), "spawn anna\nanna new(t,[])\n")
        os.kill(it.pid, signal.SIGKILL)
        self.assertEqual(it.end()[1], -signal.SIGKILL)
        self.assertEqual(stat.S_IMODE(self.history.stat().st_mode), 0o600)
        it = self.begin()
        self.assertIn(b"<0.0.0>", it.type(b"\x1b[A\x1b[A\n"))
        os.write(it._at, b"quit\n")
        self.assertEqual(it.end()[1], 0)
        self.assertEqual(self.history.read_text().splitlines(), ["spawn anna", "anna new(t,[])", "spawn anna", "quit"])

    @unittest.skipUnless(shell.readline, "this Python has no readline")
    def test_names_are_completed(self):
        it = self.begin()
        it.type(b"sp\tanna\n")
        self.assertIn(b"[]", it.type(b"an\tlookup_e\t(t,1,2,[])\n") + it.type(b"an\trec\t()\n"))
        os.write(it._at, b"exit an\t\nquit\n")
        self.assertIn(b"true", it.end()[0])

    def test_a_history_that_cannot_be_kept_stops_nothing(self):
        self.history.mkdir()
        it = self.begin()
        self.assertIn(b"<0.0.0>", it.type(b"spawn anna\n"))
        os.write(it._at, b"\x04")
        self.assertEqual(it.end()[1], 0)
        other = self.home / "other"
        it = self.begin(YOYOASH_HISTORY=str(other))
        it.type(b"spawn ben\n")
        os.write(it._at, b"\x04")
        self.assertEqual((it.end()[1], other.exists()), (0, bool(shell.readline)))


@unittest.skipUnless(LIBRARY, "no libyoyoash.so found: set YOYOASH_LIBRARY")
class WithoutATerminal(unittest.TestCase):
    def ran(self, given, *options, **variables):
        return subprocess.run([*SHELL, *options], cwd=TOP, input=given, capture_output=True, timeout=60, env=os.environ | variables)

    def test_scripts_have_the_replies_of_the_program(self):
        for name in "first", "counters", "registry", "session_cache":
            script = REPOSITORY / f"examples/{name}.ets"
            ran = self.ran(script.read_bytes(), "--seed", "1")
            self.assertEqual((ran.returncode, ran.stdout, ran.stderr), (0, pathlib.Path(f"{script}.stdout").read_bytes(), b""), name)

    def test_other_bytes_are_faults_and_stop_nothing(self):
        given = b"spawn p\r\np new(t,[])\rx\n\xff\n\0\np lookup(#Tid<0>,'\xc3\xa9')\nhelp\n\n%\xff\np receive()"
        ran = self.ran(given)
        self.assertEqual(ran.stdout.decode().splitlines(), ["<0.0.0>", "** syntax 11", "** syntax 0", "** syntax 0", "** syntax 18", "** syntax 4", "[]"])
        self.assertEqual((ran.returncode, ran.stderr), (0, b""))

    def test_options_are_those_of_the_store(self):
        ran = self.ran(b"spawn p\nspawn q\np new(t,[])\np new(u,[])\np insert(#Tid<0>,[{1},{2}])\n", "--max-processes=1", "--max-tables=1", "--max-objects=1")
        self.assertEqual(ran.stdout.decode().splitlines(), ["<0.0.0>", "** system_limit", "#Tid<0>", "** system_limit", "** system_limit"])
        for wrong in ["--max-objects=-1"], ["--seed", str(2**64)], ["--seed", "x"], ["script.ets"], ["--max-tables", "9" * 5_000]:
            ran = self.ran(b"spawn p\n", *wrong)
            self.assertEqual((ran.returncode, ran.stdout), (2, b""))
        self.assertIn(b"--max-objects", self.ran(b"", "--help").stdout)

    def test_an_output_that_is_closed_ends_it(self):
        reading, writing = os.pipe()
        os.close(reading)
        ran = subprocess.run(SHELL, cwd=TOP, input=b"spawn p\n" * 10, stdout=writing, stderr=subprocess.PIPE, timeout=60)
        os.close(writing)
        self.assertEqual((ran.returncode, ran.stderr), (1, b""))

    def test_a_missing_library_is_one_line(self):
        ran = self.ran(b"spawn p\n", YOYOASH_LIBRARY="/nowhere/libyoyoash.so")
        self.assertEqual((ran.returncode, ran.stdout, len(ran.stderr.splitlines())), (1, b"", 1))
        self.assertIn(b"export YOYOASH_LIBRARY=", ran.stderr)


@unittest.skipUnless(PROGRAM, "no ets_script found: set YOYOASH_PROGRAM")
class Command(unittest.TestCase):
    def ran(self, *options, given=b"", **variables):
        return subprocess.run([*COMMAND, *options], cwd=TOP, input=given, capture_output=True, timeout=600, env=os.environ | variables)

    def test_it_is_the_program(self):
        self.assertIn(f"ets_script {__version__}".encode(), self.ran("--version").stdout)
        ran = self.ran("--why", given=b"spawn p\np lookup(t,1)\n")
        self.assertEqual((ran.stdout, ran.stderr), (b"<0.0.0>\n** badarg\n", b"line 2: lookup/2: argument 1: no such table\n"))
        self.assertEqual(self.ran("--nonsense").returncode, 2)

    def test_a_variable_that_names_the_command_does_not_start_it_again(self):
        self.assertEqual(self.ran("--version", YOYOASH_PROGRAM=sys.executable).returncode, 0)

    def test_a_closed_output_ends_it_as_it_ends_the_program(self):
        reading, writing = os.pipe()
        os.close(reading)
        ran = subprocess.run(COMMAND, cwd=TOP, input=b"spawn p\n", stdout=writing, stderr=subprocess.DEVNULL, timeout=600)
        os.close(writing)
        self.assertNotEqual(ran.returncode, 0)
