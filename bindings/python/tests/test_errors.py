"""Each error is one line that names what to do."""

import ctypes.util
import os
import pathlib
import subprocess
import sys
import tempfile
import unittest
from unittest import mock

from helpers import ECHO, LIBRARY, PROGRAM, answering, stand_in
from yoyoash import Atom, Gone, Pid, Process, Store, SystemLimit, Unavailable, aio, encode, finding


class Errors(unittest.TestCase):
    def setUp(self):
        folder = tempfile.TemporaryDirectory()
        self.addCleanup(folder.cleanup)
        self.folder = pathlib.Path(folder.name)

    def file(self, name, content, mode=0o644):
        path = self.folder / name
        path.write_bytes(content)
        path.chmod(mode)
        return path

    def raised(self, opening, wanted):
        with self.assertRaises(Unavailable) as raised:
            opening()
        self.assertEqual(len(str(raised.exception).splitlines()), 1)
        for words in wanted:
            self.assertIn(words, str(raised.exception))

    def test_a_missing_program(self):
        wanted = [f"there is no {self.folder}/ets_script", "export YOYOASH_PROGRAM=", "pip install"]
        self.raised(lambda: Store.pipe(self.folder / "ets_script"), wanted)
        self.raised(lambda: Store.pipe([str(self.folder / "x"), "--why"]), ["export YOYOASH_PROGRAM="])

    def test_a_missing_library(self):
        self.raised(lambda: Store.in_process(self.folder / "libyoyoash.so"), ["there is no ", "export YOYOASH_LIBRARY=", "pip install"])

    def test_a_package_without_its_copies(self):
        nowhere = self.folder / "native"
        with mock.patch.multiple(finding, COPIES=nowhere, REPOSITORY=self.folder), mock.patch.dict(os.environ):
            os.environ.pop("YOYOASH_PROGRAM", None)
            os.environ.pop("YOYOASH_LIBRARY", None)
            self.raised(Store.pipe, [f"there is no {nowhere}/ets_script", "export YOYOASH_PROGRAM=", "pip install"])
            self.raised(Store.in_process, [f"there is no {nowhere}/libyoyoash.so", "export YOYOASH_LIBRARY=", "pip install"])
            (self.folder / "bindings/python").mkdir(parents=True)
            self.raised(Store.pipe, [f"git -C {self.folder} checkout -- ets_script", "export YOYOASH_PROGRAM="])
            for opening in Store.in_process, Store:
                self.raised(opening, ["checkout -- dist/x86_64-linux/libyoyoash.so", "export YOYOASH_LIBRARY="])

    def test_a_program_that_is_not_executable(self):
        path = self.file("ets_script", b"#!/bin/sh\n")
        self.raised(lambda: Store.pipe(path), ["is not executable", f"chmod +x {path}"])

    def test_a_program_of_another_platform(self):
        path = self.file("ets_script", b"\xcf\xfa\xed\xfe not for this machine", 0o755)
        self.raised(lambda: Store.pipe(path), ["x86-64 Linux with glibc 2.34", "docker run"])

    def test_a_program_whose_loader_is_missing(self):
        path = self.file("ets_script", b"#!/nonexistent/ld-linux.so\n", 0o755)
        self.raised(lambda: Store.pipe(path), ["x86-64 Linux with glibc 2.34", "docker run"])

    def test_a_library_of_another_platform(self):
        path = self.file("libyoyoash.so", b"\xcf\xfa\xed\xfe not for this machine")
        self.raised(lambda: Store.in_process(path), ["x86-64 Linux with glibc 2.34", "docker run"])

    def test_another_library(self):
        other = ctypes.util.find_library("m")
        if other:
            with self.assertRaises(Unavailable) as raised:
                Store.in_process(other if os.sep in other else self.path_of(other))
            self.assertIn("export YOYOASH_LIBRARY=", str(raised.exception))

    def path_of(self, name):
        """Returns the file of a library that is loaded by its name."""
        ctypes.CDLL(name)
        maps = pathlib.Path("/proc/self/maps").read_text().split()
        return next((it for it in maps if it.endswith(f"/{name}")), name)

    def test_a_missing_folder_is_not_a_missing_program(self):
        with self.assertRaises(FileNotFoundError):
            Store.pipe(ECHO, cwd=self.folder / "nowhere")

    def test_a_program_that_has_ended(self):
        with Store.pipe([sys.executable, "-c", "import sys; sys.exit(3)"]) as store:
            for _ in range(2):
                with self.assertRaises(Gone) as gone:
                    store.ask("spawn p")
                self.assertEqual(str(gone.exception), "gone: spawn p (the program ended with exit status 3; open a new Store)")

    def test_a_program_that_was_killed(self):
        with Store.pipe(ECHO) as store:
            anna = Process(store, "p", Pid(0))
            self.assertEqual(anna.first(Atom("t")), 0)
            store._way._program.popen.kill()
            with self.assertRaises(Gone) as gone:
                anna.first(Atom("t"))
            self.assertEqual(gone.exception.reason, "the program was killed by SIGKILL")

    def test_a_program_that_says_why_it_ends(self):
        with mock.patch("os.write"), Store.pipe(stand_in("sys.exit('rt not found')")) as store, self.assertRaises(Gone) as gone:
            store.spawn("anna")
        self.assertEqual(gone.exception.reason, "the program ended with exit status 1: rt not found")

    def test_a_closed_store(self):
        store = Store.pipe(answering(b"\0" + encode(Pid(0))))
        anna = store.spawn("anna")
        store.close()
        store.close()
        with self.assertRaises(Gone) as gone:
            anna.member(Atom("t"), 1)
        self.assertEqual(gone.exception.reason, "the store is closed")

    def test_asyncio_says_the_same(self):
        import asyncio

        async def opened(command):
            async with aio.Store(command) as store:
                await store.spawn("p")

        self.raised(lambda: asyncio.run(opened(self.folder / "ets_script")), ["export YOYOASH_PROGRAM="])
        path = self.file("ets_script", b"\xcf\xfa\xed\xfe", 0o755)
        self.raised(lambda: asyncio.run(opened(path)), ["x86-64 Linux"])
        path.chmod(0o644)
        self.raised(lambda: asyncio.run(opened(path)), [f"chmod +x {path}"])
        with self.assertRaises(Gone) as gone:
            asyncio.run(opened([sys.executable, "-c", "import sys; sys.exit(3)"]))
        self.assertEqual(gone.exception.reason, "the program ended with exit status 3")


class FullTables(unittest.TestCase):
    def check(self, store):
        with store:
            anna = store.spawn("anna")
            table = anna.new(Atom("t"), [])
            exceeding = {
                "max_objects=": lambda: anna.insert(table, [(1,), (2,)]),
                "max_tables=": lambda: anna.new(Atom("u"), []),
                "max_processes=": lambda: store.spawn("ben"),
            }
            for option, call in exceeding.items():
                with self.assertRaises(SystemLimit) as refused:
                    call()
                self.assertIn(option, str(refused.exception) if "limit reached" in refused.exception.reason else option)

    @unittest.skipUnless(PROGRAM, "no ets_script found: set YOYOASH_PROGRAM")
    def test_by_pipe(self):
        self.check(Store.pipe(max_processes=1, max_tables=1, max_objects=1))

    @unittest.skipUnless(LIBRARY, "no libyoyoash.so found: set YOYOASH_LIBRARY")
    def test_in_process(self):
        self.check(Store.in_process(max_processes=1, max_tables=1, max_objects=1))

    def test_the_remedy_names_the_option(self):
        for kind, option in [("object", "max_objects="), ("table", "max_tables="), ("process", "max_processes=")]:
            self.assertIn(option, str(SystemLimit("p new(t,[])", "system_limit", f"{kind} limit reached")))
        self.assertIsNone(SystemLimit("p new(t,[])", "system_limit", "argument 1: too deep").remedy)


class Unclosed(unittest.TestCase):
    def test_a_dropped_store_warns_and_ends_its_program(self):
        store = Store.pipe(ECHO)
        program = store._way._program.popen
        with self.assertWarns(ResourceWarning):
            del store
        self.assertEqual(program.returncode, 0)

    def test_a_closed_store_and_one_that_never_opened_do_not_warn(self):
        script = (
            "import warnings\nwarnings.simplefilter('error')\nfrom yoyoash import *\n"
            f"with Store.pipe({ECHO!r}): pass\ntry: Store.pipe('/nonexistent/ets_script')\nexcept Unavailable: print('unavailable')"
        )
        self.assertEqual(self.run_python(script), ("unavailable\n", ""))

    def test_a_store_that_is_open_at_exit_warns_once(self):
        script = f"from yoyoash import *\nstore = Store.pipe({ECHO!r})\nprint(Process(store, 'p', Pid(0)).first(Atom('t')))"
        output, errors = self.run_python(script, "-Wdefault::ResourceWarning")
        self.assertEqual((output, errors.count(" ResourceWarning: <"), "Traceback" in errors), ("0\n", 1, False))

    @unittest.skipUnless(PROGRAM, "no ets_script found: set YOYOASH_PROGRAM")
    def test_python_ends_while_a_store_by_pipe_is_open(self):
        self.check_ends_while_open(f"Store.pipe({str(PROGRAM)!r})")

    @unittest.skipUnless(LIBRARY, "no libyoyoash.so found: set YOYOASH_LIBRARY")
    def test_python_ends_while_a_store_in_process_is_open(self):
        self.check_ends_while_open(f"Store.in_process({str(LIBRARY)!r})")

    def check_ends_while_open(self, opening):
        """Checks how Python ends while two stores are open. Another thread makes calls in the last case."""
        begun = f"import os, threading\nfrom yoyoash import *\nstores = [{opening}, {opening}]\nanna = stores[0].spawn('anna')\n"
        thread = (
            "def look():\n try:\n  while True: anna.member(Atom('t'), 1)\n except Gone: pass\n"
            "anna.new(Atom('t'), [Atom('named_table')])\nthreading.Thread(target=look, daemon=True).start()\n"
        )
        forked = "child = os.fork()\nif child: print(os.waitpid(child, 0)[1])"
        ends = {"": (0, "", ""), "1 / 0": (1, "", "ZeroDivisionError"), forked: (0, "0\n", ""), thread: (0, "", "")}
        for script, wanted in ends.items():
            with self.subTest(script):
                ran = self.ran(begun + script, "-Wdefault::ResourceWarning")
                self.assertEqual((ran.returncode, ran.stdout, ran.stderr.count("Fatal")), (*wanted[:2], 0), ran.stderr)
                self.assertIn(wanted[2], ran.stderr)
                self.assertEqual(ran.stderr.count(" ResourceWarning: <"), 2)

    def run_python(self, script, *options):
        ran = self.ran(script, *options)
        return ran.stdout, ran.stderr

    def ran(self, script, *options):
        top = pathlib.Path(finding.__file__).parents[1]
        return subprocess.run([sys.executable, "-B", *options, "-c", script], cwd=top, capture_output=True, text=True, timeout=60)
