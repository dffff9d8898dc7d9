"""Forked children: a store stays with the process that opened it."""

import os
import signal
import subprocess
import sys
import threading
import unittest

from helpers import EXTENSION, LIBRARY, PROGRAM, without_extension
from yoyoash import Atom, Gone, Store, finding

TABLE = Atom("t")
# A client with an open store and a process that has a table.
BEGUN = """
import asyncio, multiprocessing, os, signal, sys, threading, time
from yoyoash import *
signal.alarm(20)
def opened(make):
    store = make()
    p = store.spawn("p")
    p.new(Atom("t"), [Atom("named_table")])
    p.insert(Atom("t"), (1, b"data"))
    return store, p
"""
BUSY = """
store, p = opened(MAKE)
stop = []
def busy():
    while not stop: p.insert(Atom("t"), (2, b"x" * 3_000))
thread = threading.Thread(target=busy)
thread.start()
for _ in range(3):
    child = os.fork()
    if child == 0:
        signal.alarm(5)
        sys.exit(0)
    print(os.waitpid(child, 0)[1], end=" ")
stop.append(1)
thread.join()
print(p.lookup(Atom("t"), 1))
store.close()
"""
POOL = """
def work(number):
    try: return p.lookup(Atom("t"), number)
    except Gone: return "gone"
store, p = opened(MAKE)
with multiprocessing.get_context("fork").Pool(2) as pool:
    print(set(pool.map(work, range(20))), p.lookup(Atom("t"), 1))
    store.close()
print("closed")
"""
# The child lives on when the parent closes.
SLEEPING = """
store, p = opened(MAKE)
child = os.fork()
if child == 0:
    time.sleep(10)
    os._exit(0)
began = time.monotonic()
store.close()
print(time.monotonic() - began < 2)
os.kill(child, signal.SIGKILL)
os.waitpid(child, 0)
"""
# The child ends as Python ends, within an event loop that it shares with its parent.
AWAITED = """
async def main():
    async with aio.Store() as store:
        p = await store.spawn("p")
        await p.new(Atom("t"), [Atom("named_table")])
        for _ in range(3):
            child = os.fork()
            if child == 0: sys.exit(from_child(p))
            print(os.waitpid(child, 0)[1], end=" ")
            print(await p.insert(Atom("t"), (1, 2)), await asyncio.gather(*[p.lookup(Atom("t"), 1) for _ in range(3)]))
def from_child(p):
    asyncio._set_running_loop(None)
    async def look():
        try: await p.lookup(Atom("t"), 1)
        except Gone: return 0
        return 1
    loop = asyncio.new_event_loop()
    return loop.run_until_complete(asyncio.wait_for(look(), 5))
asyncio.run(main())
"""


def ran(script, make="None"):
    """Runs a client in a Python of its own. Returns what it prints, and its status."""
    top = os.path.dirname(os.path.dirname(finding.__file__))
    words = [sys.executable, "-B", "-W", "ignore::DeprecationWarning", "-c", (BEGUN + script).replace("MAKE", make)]
    done = subprocess.run(words, cwd=top, capture_output=True, text=True, timeout=60)
    return done.stdout, done.returncode, done.stderr


@unittest.skipUnless(PROGRAM, "no ets_script found: set YOYOASH_PROGRAM")
class ByPipe(unittest.TestCase):
    MAKE = "Store.pipe"

    def open(self):
        return Store.pipe()

    def status_of_child(self, work):
        """Runs work in a forked child. Returns the child's status: 0 if the work returned true in time."""
        child = os.fork()
        if child == 0:
            signal.alarm(10)
            status = 1
            try:
                status = 0 if work() else 2
            finally:
                os._exit(status)
        return os.waitpid(child, 0)[1]

    def test_each_call_in_a_child_is_gone_at_once_and_the_parent_goes_on(self):
        with self.open() as store:
            p = store.spawn("p")
            p.new(TABLE, [Atom("named_table")])
            calls = [lambda: p.insert(TABLE, (1, 3)), lambda: store.ask("p lookup(t,1)"), lambda: store.spawn("q"), p.exit]
            calls += [lambda: list(p.walk(TABLE)), lambda: self.raise_first(p.pipeline())]

            def is_gone():
                for call in calls:
                    try:
                        call()
                        return False
                    except Gone as gone:
                        if "forked" not in gone.reason:
                            return False
                store.close()
                return True

            for number in range(5):
                p.insert(TABLE, (number, number))
                self.assertEqual(self.status_of_child(is_gone), 0)
                self.assertEqual(p.lookup(TABLE, number), [(number, number)])

    def raise_first(self, calls):
        calls.lookup(TABLE, 1)
        raise calls.run()[0]

    def test_a_child_may_open_a_store_of_its_own(self):
        with self.open():

            def works():
                with self.open() as own:
                    return own.spawn("p").new(TABLE, [Atom("named_table")]) == TABLE

            self.assertEqual(self.status_of_child(works), 0)

    def test_a_child_forked_during_a_call_is_not_stopped(self):
        with self.open() as store:
            p, stop = store.spawn("p"), []
            p.new(TABLE, [Atom("named_table")])

            def busy():
                while not stop:
                    p.insert(TABLE, (1, bytes(20_000)))

            def is_gone():
                try:
                    return bool(p.lookup(TABLE, 1)) and False
                except Gone:
                    return True

            thread = threading.Thread(target=busy)
            thread.start()
            statuses = [self.status_of_child(is_gone) for _ in range(10)]
            stop.append(True)
            thread.join()
            self.assertEqual((statuses, p.lookup(TABLE, 1)), ([0] * 10, [(1, bytes(20_000))]))

    def test_children_that_end_as_python_ends_leave_the_store_alone(self):
        self.assertEqual(ran(BUSY, self.MAKE), ("0 " * 3 + "[(1, b'data')]\n", 0, ""))

    def test_a_pool_of_processes(self):
        self.assertEqual(ran(POOL, self.MAKE), ("{'gone'} [(1, b'data')]\nclosed\n", 0, ""))

    def test_closing_does_not_wait_for_a_child(self):
        self.assertEqual(ran(SLEEPING, self.MAKE), ("True\n", 0, ""))


@unittest.skipUnless(LIBRARY, "no libyoyoash.so found: set YOYOASH_LIBRARY")
class InProcess(ByPipe):
    MAKE = "Store.in_process"

    def open(self):
        return Store.in_process()


@unittest.skipUnless(LIBRARY and EXTENSION, "the extension was not built")
class WithoutExtension(ByPipe):
    MAKE = "Store.in_process"

    def open(self):
        with without_extension():
            return Store.in_process()

    def test_a_pool_of_processes(self):
        """Is tested by the class before."""

    test_closing_does_not_wait_for_a_child = test_children_that_end_as_python_ends_leave_the_store_alone = test_a_pool_of_processes


@unittest.skipUnless(PROGRAM, "no ets_script found: set YOYOASH_PROGRAM")
class Awaited(unittest.TestCase):
    def test_children_of_an_event_loop_leave_the_store_alone(self):
        self.assertEqual(ran(AWAITED), ("0 True [[(1, 2)], [(1, 2)], [(1, 2)]]\n" * 3, 0, ""))
