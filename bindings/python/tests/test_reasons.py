"""Reasons to compare: every reason that the store prints is known, and every fault has its own."""

import copy
import pickle
import re
import sys
import unittest
from unittest import mock

from helpers import ECHO, LIBRARY, PROGRAM, REPOSITORY, answering, stand_in
from yoyoash import Atom, BadArg, Fault, NoMemory, Pid, Process, Reason, Store, SystemLimit, Untold, aio, encode, forking

TABLE = Atom("t")
# What the program prints for the misuses of an example: `line N: CALL/COUNT: REASON`, or `line N: byte AT: REASON`.
RECORDED = REPOSITORY / "tests/program/reasons.txt"
SCRIPT = REPOSITORY / "examples/reasons.ets"
HEADER = REPOSITORY / "bindings/c/include/yoyoash_reason.h"
# The reasons that a program or a library never gives.
OWN = "NOT_A_LINE TOO_LONG CLOSED NOT_OPEN FORKED INTERRUPTED NOT_PACKETS TOO_MANY_REPLIES ENDED OTHER".split()


def recorded():
    """Returns the reasons of the file by the numbers of their lines."""
    rows = re.findall(r"^line (\d+): (?:byte \d+|\w+(?:/\d+)?): (.*)$", RECORDED.read_text(), re.M)
    return {int(number): text for number, text in rows}


class Texts(unittest.TestCase):
    def test_every_recorded_reason_is_known(self):
        texts = recorded()
        self.assertEqual(len(texts), len(RECORDED.read_text().splitlines()))
        for text in texts.values():
            with self.subTest(text):
                self.assertIsNot(Reason.of(text), Reason.OTHER)
                number = re.match(r"argument (\d+): ", text)
                self.assertEqual(BadArg("", "badarg", text).argument, int(number[1]) if number else None)

    def test_the_names_and_texts_are_those_of_the_header_for_c(self):
        rows = re.findall(r'^ *X\((\w+), \d+, "(.*)"\)', HEADER.read_text(), re.M)
        self.assertGreater(len(rows), 50)
        self.assertEqual([(it.name, it.value) for it in Reason if it.name not in OWN], rows)

    def test_a_text_has_one_reason(self):
        texts = {
            "no such table": Reason.NO_TABLE,
            "argument 2: no such table": Reason.NO_TABLE,
            "argument 12: no such key": Reason.NO_KEY,
            "unexpected text after the call": Reason.TRAILING_TEXT,
            "unexpected '.'": Reason.UNEXPECTED,
            "anna was never spawned": Reason.NO_PROCESS,
            "anna was already spawned": Reason.PROCESS_USED,
            "argument : no such table": Reason.OTHER,
            f"argument {'9' * 5_000}: no such table": Reason.OTHER,
            "no such tables": Reason.OTHER,
            "a reason of a later version": Reason.OTHER,
            "": Reason.OTHER,
        }
        for text, reason in texts.items():
            self.assertIs(Reason.of(text), reason, text[:40])

    def test_a_fault_without_words_has_a_reason(self):
        kinds = {NoMemory: Reason.OUT_OF_MEMORY, Untold: Reason.OUT_OF_MEMORY, BadArg: Reason.OTHER, Fault: Reason.OTHER}
        for kind, reason in kinds.items():
            it = kind("p lookup(t,1)", "x")
            self.assertEqual((it.code, it.argument), (reason, None))

    def test_a_copied_fault_has_the_same_reason(self):
        fault = BadArg("p lookup(t,1)", "badarg", "argument 1: no such table")
        for it in copy.copy(fault), copy.deepcopy(fault), pickle.loads(pickle.dumps(fault)):
            self.assertEqual((it.code, it.argument, str(it)), (Reason.NO_TABLE, 1, str(fault)))


class Stores(unittest.TestCase):
    """The reasons of calls, by the program and by the library."""

    def check_misuses(self, store):
        """Makes the calls of the example. Those that the package itself does not send have a reason of its own."""
        texts, seen = recorded(), 0
        for number, line in enumerate(SCRIPT.read_text().splitlines(), 1):
            if not line.strip() or line.startswith("%"):
                continue
            (answer,) = store.ask_all([line])
            with self.subTest(line):
                self.assertEqual(isinstance(answer, Fault), number in texts)
                if isinstance(answer, Fault):
                    self.assertIsNot(answer.code, Reason.OTHER)
                    if answer.answer.startswith("syntax"):
                        continue
                    self.assertEqual((answer.code, answer.reason), (Reason.of(texts[number]), texts[number]))
                    seen += 1
        self.assertGreater(seen, 25)

    @unittest.skipUnless(PROGRAM, "no ets_script found: set YOYOASH_PROGRAM")
    def test_misuses_by_pipe(self):
        with Store.pipe() as store:
            self.check_misuses(store)

    @unittest.skipUnless(LIBRARY, "no libyoyoash.so found: set YOYOASH_LIBRARY")
    def test_misuses_in_process(self):
        with Store.in_process() as store:
            self.check_misuses(store)

    @unittest.skipUnless(LIBRARY, "no libyoyoash.so found: set YOYOASH_LIBRARY")
    def test_limits(self):
        with Store.in_process(max_processes=1, max_tables=1, max_objects=1) as store:
            p = store.spawn("p")
            table = p.new("t")
            exceeding = {
                Reason.OBJECT_LIMIT: lambda: p.insert(table, [(1,), (2,)]),
                Reason.TABLE_LIMIT: lambda: p.new("u"),
                Reason.PROCESS_LIMIT: lambda: store.spawn("q"),
            }
            for reason, call in exceeding.items():
                with self.assertRaises(SystemLimit) as refused:
                    call()
                self.assertIs(refused.exception.code, reason)

    def check_gone(self, reason, store, calls=1):
        """Checks the reason for which the last of some calls has no reply."""
        p = Process(store, "p", Pid(0))
        for number in range(calls):
            try:
                p.first(TABLE)
            except Fault as fault:
                code = fault.code
        self.assertIs(code, reason)

    def test_a_store_that_is_gone_says_why(self):
        programs = {
            Reason.ENDED: ([sys.executable, "-c", "import sys; sys.exit('unexpected end')"], 1),
            Reason.NOT_PACKETS: (stand_in("receive()\nprint('** syntax 0', flush=True)\nreceive()"), 1),
            Reason.TOO_MANY_REPLIES: (stand_in("receive()\nsys.stdout.buffer.write(bytes([0, 0, 0, 4, 0, 131, 97, 1]) * 2)"), 2),
        }
        for reason, (words, calls) in programs.items():
            with mock.patch("os.write"), Store.pipe(words) as store:
                self.check_gone(reason, store, calls)
        store = Store.pipe(ECHO)
        store.close()
        self.check_gone(Reason.CLOSED, store)
        with Store.pipe(ECHO) as store:
            store._way.ended = Reason.INTERRUPTED.value
            self.check_gone(Reason.INTERRUPTED, store)
        with Store.pipe(answering(b"\0" + encode(1))) as store:
            forking._abandon_all()
            self.check_gone(Reason.FORKED, store)

    def test_calls_that_the_package_does_not_send(self):
        with Store.pipe(ECHO) as store:
            with self.assertRaises(Fault) as refused:
                Process(store, "p", Pid(0)).lookup(TABLE, bytes(17_000_000))
            self.assertIs(refused.exception.code, Reason.TOO_LONG)
            with self.assertRaises(Fault) as refused:
                store.ask("grow t")
            self.assertIs(refused.exception.code, Reason.NOT_A_LINE)


class Awaited(unittest.IsolatedAsyncioTestCase):
    async def test_a_store_that_is_not_open(self):
        with self.assertRaises(Fault) as gone:
            await aio.Store(ECHO).ask("spawn p")
        self.assertIs(gone.exception.code, Reason.NOT_OPEN)
