"""The same calls over a pipe, in this process and with asyncio."""

import asyncio
import unittest

from helpers import EXTENSION, LIBRARY, PROGRAM, without_extension
from yoyoash import Atom, BadArg, NoProcess, Pid, Store, Tid, aio

PRICES, APPLE = Atom("prices"), Atom("apple")


@unittest.skipUnless(PROGRAM, "no ets_script found: set YOYOASH_PROGRAM")
class ByPipe(unittest.TestCase):
    def open(self):
        return Store.pipe()

    def test_two_processes_and_a_table(self):
        with self.open() as store:
            anna, ben = store.spawn("anna"), store.spawn("ben")
            self.assertEqual((anna.pid, ben.pid), (Pid(0), Pid(1)))
            prices = anna.new(PRICES, [Atom("named_table")])
            self.assertEqual(prices, PRICES)
            self.assertEqual(anna.insert(prices, (APPLE, [30, b"kg"])), True)
            self.assertEqual(ben.lookup(prices, APPLE), [(APPLE, [30, b"kg"])])
            with self.assertRaises(BadArg) as refused:
                ben.insert(prices, (Atom("pear"), 1))
            self.assertEqual(refused.exception.line, "ben insert('prices',{'pear',1})")
            self.assertRegex(refused.exception.reason, "^argument 1: ")
            self.assertEqual(ben.new(Atom("x"), []), Tid(1))
            self.assertEqual(anna.lookup(prices, Atom("Golden 'Delicious'")), [])
            self.assertIs(anna.exit(), True)
            with self.assertRaises(NoProcess):
                anna.lookup(prices, APPLE)

    def test_a_table_that_does_not_exist(self):
        with self.open() as store, self.assertRaises(BadArg) as refused:
            store.spawn("anna").lookup(Atom("shops"), APPLE)
        self.assertEqual(str(refused.exception), "badarg: anna lookup('shops','apple') (argument 1: no such table)")

    def test_yes_and_no_are_bools(self):
        with self.open() as store:
            anna = store.spawn("anna")
            table = anna.new(PRICES, [])
            with anna.pipeline() as calls:
                for made in anna, calls:
                    answers = [made.insert_new(table, (1, 2)), made.insert_new(table, (1, 2)), made.member(table, 1), made.member(table, 2)]
                    self.assertEqual(answers, [True, False, True, False] if made is anna else [None] * 4)
                calls.member(Atom("nowhere"), 1)
                calls.insert(table, (1, 2))
            self.assertEqual(calls.answers[:4], [False, False, True, False])
            self.assertEqual([type(it) for it in calls.answers[4:]], [BadArg, bool])

    def test_lines_of_the_script_language(self):
        lines = {
            "spawn anna": "anna was already spawned",
            " anna\tnew ( t , [ named_table ] ) ": Atom("t"),
            "anna insert(t,{'A b',\"xy\",<<1,2>>,<<\"ab\">>,<0.7.0>,-5,{},[]})": Atom("true"),
            "anna lookup(t,'A b')": [(Atom("A b"), [120, 121], b"\1\2", b"ab", Pid(7), -5, (), [])],
            "anna lookup(t": "syntax 13",
            "anna lookup(t,1.5)": "syntax 15",
            "ben receive()": "ben was never spawned",
            "exit anna": Atom("true"),
            "anna receive()": None,
            "spawn carl": Pid(1),
        }
        with self.open() as store:
            for answers in [store.ask_all(["spawn anna", *lines])]:
                self.assertEqual(answers[0], Pid(0))
                for answer, (line, wanted) in zip(answers[1:], lines.items(), strict=True):
                    if isinstance(wanted, str):
                        self.assertIn(wanted, (answer.reason, answer.answer), line)
                    elif wanted is not None:
                        self.assertEqual(answer, wanted, line)
                self.assertIsInstance(answers[-2], NoProcess)

    def test_bytearrays_and_memoryviews_are_binaries(self):
        with self.open() as store:
            anna = store.spawn("anna")
            table = anna.new(PRICES, [])
            anna.insert(table, (bytearray(b"key"), [memoryview(b"abc")[1:], bytearray()]))
            self.assertEqual(anna.lookup(table, b"key"), [(b"key", [b"bc", b""])])

    def test_a_binary_of_ten_megabytes(self):
        with self.open() as store:
            anna = store.spawn("anna")
            table = anna.new(PRICES, [])
            anna.insert(table, (1, bytes(10_000_000)))
            self.assertEqual(anna.lookup(table, 1), [(1, bytes(10_000_000))])

    def test_limits_are_the_largest_by_default(self):
        with self.open() as store:
            names = store.ask_all([f"spawn p{number}" for number in range(5_000)])
            self.assertEqual(names[-1], Pid(4_999))


@unittest.skipUnless(LIBRARY, "no libyoyoash.so found: set YOYOASH_LIBRARY")
class InProcess(ByPipe):
    def open(self):
        return Store.in_process()


@unittest.skipUnless(LIBRARY and EXTENSION, "the extension was not built")
class WithoutExtension(ByPipe):
    def open(self):
        with without_extension():
            return Store.in_process()


@unittest.skipUnless(PROGRAM, "no ets_script found: set YOYOASH_PROGRAM")
class Awaited(unittest.IsolatedAsyncioTestCase):
    async def test_two_processes_and_a_table(self):
        async with aio.Store() as store:
            anna, ben = await store.spawn("anna"), await store.spawn("ben")
            prices = await anna.new(PRICES, [Atom("named_table")])
            await asyncio.gather(*[anna.insert(prices, (number, 2 * number)) for number in range(500)])
            self.assertEqual(await asyncio.gather(*[ben.lookup(prices, it) for it in range(500)]), [[(it, 2 * it)] for it in range(500)])
            with self.assertRaises(BadArg) as refused:
                await ben.lookup(Atom("shops"), APPLE)
            self.assertEqual(str(refused.exception), "badarg: ben lookup('shops','apple') (argument 1: no such table)")
            self.assertIs(await anna.exit(), True)
            with self.assertRaises(NoProcess):
                await anna.lookup(prices, APPLE)
