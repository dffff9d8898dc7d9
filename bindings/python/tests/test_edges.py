"""Closing, Ctrl-C, interrupts and long calls. Each test here found a fault once."""

import asyncio
import os
import signal
import subprocess
import sys
import tempfile
import threading
import time
import unittest
from unittest import mock

from helpers import EXTENSION, LIBRARY, PROGRAM, in_time, stand_in
from yoyoash import Atom, Gone, Pid, Process, Store, TooLong, aio, encode, finding, program

TABLE = Atom("t")
# A client that catches Ctrl-C while no call runs, by a pipe and by asyncio.
CTRL_C = """
import asyncio, signal, sys, time
from yoyoash import *
def wait():
    # An event loop has a handler of its own.
    signal.signal(signal.SIGINT, signal.default_int_handler)
    try:
        print("ready", flush=True)
        time.sleep(20)
    except KeyboardInterrupt: print("caught", flush=True)
def by_pipe():
    with Store.pipe() as store:
        p = store.spawn("p")
        wait()
        p.new(Atom("t"), [])
        print(p.pid)
async def by_asyncio():
    async with aio.Store() as store:
        p = await store.spawn("p")
        wait()
        await p.new(Atom("t"), [])
        print(p.pid)
by_pipe() if sys.argv[1] == "pipe" else asyncio.run(by_asyncio())
"""
# Makes calls, and interrupts each at a point of its time by chance.
INTERRUPTS = """
import faulthandler, random, signal, sys
from yoyoash import *
from yoyoash import calling
if sys.argv[1] == "ctypes": calling.extension = None
store = Store.in_process()
p = store.spawn("p")
p.new(Atom("t"), [Atom("named_table")])
armed, hits, wrong, number = False, 0, 0, 0
def interrupt(*_):
    global armed
    if armed:
        armed = False
        raise KeyboardInterrupt
signal.signal(signal.SIGALRM, interrupt)
numbers = random.Random(76)
asked = [lambda: store.ask(f"p lookup_element(t,k,2,{number})"), lambda: p.lookup_element(Atom("t"), Atom("k"), 2, number)]
while hits < 20_000:
    number += 1
    try:
        armed = True
        signal.setitimer(signal.ITIMER_REAL, numbers.uniform(1e-6, 3e-5))
        wrong += asked[number % 4 == 0]() != number
        armed = False
    except KeyboardInterrupt:
        hits += 1
signal.setitimer(signal.ITIMER_REAL, 0)
faulthandler.dump_traceback_later(5, exit=True)
print(wrong, store.ask("p lookup_element(t,k,2,7)"), p.lookup_element(Atom("t"), Atom("k"), 2, 7), store.spawn("q").name)
store.close()
"""


def client(script, *words, **options):
    """Returns a client in a Python of its own."""
    top = os.path.dirname(os.path.dirname(finding.__file__))
    return subprocess.Popen([sys.executable, "-B", "-c", script, *words], cwd=top, stdout=subprocess.PIPE, text=True, **options)


def longest_row(table):
    """Returns two terms. An insertion of a tuple of 1 and these is the longest call that fits a packet."""
    row = [[Atom("a" * 255)] * 65_000, b""]
    return [row[0], bytes(16_777_216 - 5 - len(encode((Atom("insert"), [table, (1, *row)]))))]


def with_patience(seconds):
    """Returns a context in which closing waits for this time."""
    return mock.patch.object(program, "PATIENCE", seconds)


@unittest.skipUnless(PROGRAM, "no ets_script found: set YOYOASH_PROGRAM")
class ByPipe(unittest.TestCase):
    def test_ctrl_c_does_not_reach_the_program(self):
        for way in "pipe", "asyncio":
            it = client(CTRL_C, way, start_new_session=True)
            self.assertEqual(it.stdout.readline(), "ready\n")
            os.killpg(it.pid, signal.SIGINT)
            self.assertEqual((it.communicate(timeout=30)[0], it.returncode), ("caught\nPid(0)\n", 0), way)

    def test_closing_in_another_threads_call_leaves_other_files_alone(self):
        """The descriptor stays open as long as the call runs, so no file that is opened then gets its number."""
        store = Store.pipe(stand_in("time.sleep(60)"))
        p, at = Process(store, "p", Pid(0)), store._way._program.requests.fileno()
        raised = []

        def insert():
            try:
                p.insert(TABLE, (1, bytes(2_000_000)))
            except BaseException as error:
                raised.append(error)

        calling, closing = threading.Thread(target=insert), threading.Thread(target=store.close)
        with with_patience(2):
            pipe = os.fstat(at).st_ino
            calling.start()
            time.sleep(0.1)
            closing.start()
            time.sleep(0.1)
            with tempfile.TemporaryFile() as file:
                self.assertEqual((os.fstat(at).st_ino, file.fileno() == at), (pipe, False))
                calling.join(10)
                closing.join(10)
                self.assertEqual((file.read(), [type(it) for it in raised]), (b"", [Gone]))
        with self.assertRaises(Gone):
            p.lookup(TABLE, 1)

    def test_closing_while_threads_call_raises_nothing_else(self):
        raised = []

        def busy(p, table):
            try:
                while True:
                    p.insert(table, (1, bytes(2_000)))
            except Gone:
                pass
            except BaseException as error:
                raised.append(error)

        for _ in range(20):
            store = Store.pipe([PROGRAM, "--external"])
            p = store.spawn("p")
            threads = [threading.Thread(target=busy, args=(p, p.new(TABLE, []))) for _ in range(3)]
            for it in threads:
                it.start()
            self.assertTrue(in_time(store.close)[0])
            for it in threads:
                it.join(10)
        self.assertEqual(raised, [])

    def test_closing_kills_a_program_that_is_stopped(self):
        store = Store.pipe([PROGRAM, "--external"])
        at = store._way._program.popen.pid
        os.kill(at, signal.SIGSTOP)
        with with_patience(0.3):
            is_in_time, _ = in_time(store.close)
        is_gone = not os.path.exists(f"/proc/{at}")
        os.kill(at, signal.SIGCONT) if not is_gone else None
        self.assertEqual((is_in_time, is_gone), (True, True))

    def test_closing_kills_a_program_that_reads_no_end(self):
        store = Store.pipe(stand_in("time.sleep(60)"))
        with with_patience(0.3):
            self.assertEqual(in_time(store.close), (True, []))
        self.assertEqual(store._way._program.popen.returncode, -signal.SIGKILL)

    def test_a_program_that_ends_while_its_child_has_its_output(self):
        with Store.pipe(["sh", "-c", "sleep 5 & exec 0<&- ; exit 3"]) as store, self.assertRaises(Gone) as gone:
            began = time.monotonic()
            store.spawn("p")
        self.assertEqual((gone.exception.reason, time.monotonic() - began < 4), ("the program ended with exit status 3", True))

    def test_a_call_that_fits_no_packet_is_not_sent(self):
        with Store.pipe([PROGRAM, "--external"]) as store:
            p = store.spawn("p")
            table = p.new(TABLE, [])
            longest = longest_row(table)
            p.insert(table, (1, *longest))
            longest[1] += b"x"
            with p.pipeline() as calls:
                calls.insert(table, (2, *longest))
                calls.insert(table, (2, b"short"))
            self.assertEqual([type(it) for it in calls.answers], [TooLong, bool])
            self.assertIn("the call has 16,777,217 bytes, and a packet at most 16,777,216", str(calls.answers[0]))
            with self.assertRaises(TooLong):
                p.insert(table, (2, *longest))
            self.assertEqual((p.lookup(table, 2), p.info(table, Atom("size"))), ([(2, b"short")], 2))

    def test_requests_and_replies_that_fill_both_pipes(self):
        with Store.pipe([PROGRAM, "--external"]) as store:
            p = store.spawn("p")
            table = p.new(TABLE, [])
            with p.pipeline() as calls:
                for number in range(20):
                    calls.insert(table, (number, bytes(500_000)))
                    calls.lookup(table, number)
            self.assertEqual([it[0][0] for it in calls.answers[1::2]], list(range(20)))


@unittest.skipUnless(PROGRAM, "no ets_script found: set YOYOASH_PROGRAM")
class ByAsyncio(unittest.IsolatedAsyncioTestCase):
    async def test_closing_goes_on_if_it_is_cancelled(self):
        store = aio.Store([PROGRAM, "--external"])
        await store.open()
        await store.spawn("p")
        popen = store._exchange._program.popen
        os.kill(popen.pid, signal.SIGSTOP)
        with self.assertRaises(asyncio.TimeoutError):
            await asyncio.wait_for(store.close(), 0.1)
        os.kill(popen.pid, signal.SIGCONT)
        await asyncio.wait_for(store.close(), 10)
        self.assertEqual(popen.returncode, 0)
        await store.close()

    async def test_closing_kills_a_program_that_is_stopped(self):
        store = aio.Store([PROGRAM, "--external"])
        await store.open()
        p = await store.spawn("p")
        popen = store._exchange._program.popen
        os.kill(popen.pid, signal.SIGSTOP)
        call = asyncio.create_task(p.new(TABLE, []))
        await asyncio.sleep(0)
        with with_patience(0.3):
            await asyncio.wait_for(store.close(), 10)
        self.assertEqual(popen.returncode, -signal.SIGKILL)
        with self.assertRaises(Gone):
            await call

    async def test_a_call_that_fits_no_packet_is_not_sent(self):
        async with aio.Store([PROGRAM, "--external"]) as store:
            p = await store.spawn("p")
            table = await p.new(TABLE, [])
            with self.assertRaises(TooLong):
                await p.insert(table, (1, *longest_row(table), 0))
            self.assertEqual(await p.lookup(table, 1), [])

    async def test_a_store_that_is_dropped_warns_and_ends_its_program(self):
        store = aio.Store([PROGRAM, "--external"])
        await store.open()
        popen = store._exchange._program.popen
        with self.assertWarns(ResourceWarning):
            store.__del__()
        self.assertIsNotNone(popen.returncode)


@unittest.skipUnless(LIBRARY, "no libyoyoash.so found: set YOYOASH_LIBRARY")
class InProcess(unittest.TestCase):
    def check_interrupts(self, way):
        it = client(INTERRUPTS, way)
        self.addCleanup(it.kill)
        self.assertEqual((it.communicate(timeout=60)[0], it.returncode), ("0 7 7 q\n", 0))

    def test_twenty_thousand_interrupts_without_the_extension(self):
        self.check_interrupts("ctypes")

    @unittest.skipUnless(EXTENSION, "the extension was not built")
    def test_twenty_thousand_interrupts_with_the_extension(self):
        self.check_interrupts("extension")
