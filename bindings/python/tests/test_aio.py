"""The client for asyncio, with programs that stand in for the store."""

import asyncio
import unittest

from helpers import ECHO, answering, stand_in
from yoyoash import Atom, BadArg, Gone, Pid, encode
from yoyoash.aio import Process, Store

TABLE = Atom("t")


class Programs(unittest.IsolatedAsyncioTestCase):
    async def test_calls_in_flight_have_their_own_answers(self):
        async with Store(ECHO) as store:
            p = Process(store, "p", Pid(0))
            self.assertEqual(await asyncio.gather(*[p.lookup(TABLE, it) for it in range(1_000)]), list(range(1_000)))

    async def test_calls_are_sent_without_waiting_for_answers(self):
        async with Store(stand_in("for _ in range(3): receive()\nfor n in range(3): number(n)")) as store:
            p = Process(store, "p", Pid(0))
            self.assertEqual(await asyncio.gather(*[p.lookup(TABLE, it) for it in range(3)]), [0, 1, 2])

    async def test_the_answer_of_a_cancelled_call_is_dropped(self):
        async with Store(ECHO) as store:
            p = Process(store, "p", Pid(0))
            for number in range(50):
                cancelled = asyncio.create_task(p.lookup(TABLE, -1))
                other = asyncio.create_task(p.lookup(TABLE, number))
                await asyncio.sleep(0)
                cancelled.cancel()
                with self.assertRaises(asyncio.CancelledError):
                    await cancelled
                self.assertEqual(await other, number)

    async def test_a_call_that_times_out_leaves_the_rest_in_order(self):
        code = "for n in range(2):\n receive()\n time.sleep(0.3 if n == 0 else 0)\n number(n)"
        async with Store(stand_in(code)) as store:
            p = Process(store, "p", Pid(0))
            with self.assertRaises(asyncio.TimeoutError):
                await asyncio.wait_for(p.first(TABLE), 0.05)
            self.assertEqual(await p.first(TABLE), 1)

    async def test_calls_and_replies_that_are_longer_than_a_pipe_holds(self):
        keys = [b"x" * 10_000 + str(number).encode() for number in range(300)] + [bytes(5_000_000)]
        async with Store(ECHO) as store:
            p = Process(store, "p", Pid(0))
            self.assertEqual(await asyncio.gather(*[p.lookup(TABLE, key) for key in keys]), keys)

    async def test_a_release_follows_a_fix_that_was_cancelled(self):
        code = "while True:\n body = receive()\n time.sleep(0.2)\n answer(b'\\0\\x83m' + struct.pack('>I', len(body)) + body)"
        async with Store(stand_in(code)) as store:
            p = Process(store, "p", Pid(0))

            async def fix():
                async with p.fixed(TABLE):
                    self.fail("the call was cancelled")

            with self.assertRaises(asyncio.TimeoutError):
                await asyncio.wait_for(fix(), 0.05)
            released = store._exchange._waiting[-1]
            self.assertIn(b"receive", await p.receive())
            self.assertIn(encode(Atom("false"))[1:], released.result())

    async def test_refused_calls_have_their_reasons(self):
        code = "for n in range(100):\n receive()\n answer(b'\\1argument %d: no' % n) if n % 2 else number(n)"
        async with Store(stand_in(code)) as store:
            p = Process(store, "p", Pid(0))
            answers = await asyncio.gather(*[p.first(TABLE) for _ in range(100)], return_exceptions=True)
            self.assertEqual(answers[::2], list(range(0, 100, 2)))
            self.assertEqual([(type(it), it.reason) for it in answers[1::2]], [(BadArg, f"argument {number}: no") for number in range(1, 100, 2)])

    async def test_each_call_that_waits_is_gone_if_the_program_ends(self):
        async with Store(answering(b"\0" + encode(1), b"\0" + encode(2))) as store:
            p = Process(store, "p", Pid(0))
            answers = await asyncio.gather(*[p.first(TABLE) for _ in range(4)], return_exceptions=True)
            self.assertEqual(answers[:2], [1, 2])
            self.assertEqual({type(it) for it in answers[2:]}, {Gone})
            with self.assertRaises(Gone):
                await p.first(TABLE)

    async def test_a_program_that_prints_more_than_it_was_sent_gets_no_more_calls(self):
        async with Store(stand_in("receive()\nsys.stdout.buffer.write(bytes([0, 0, 0, 4, 0, 131, 97, 1]) * 2)")) as store:
            p = Process(store, "p", Pid(0))
            self.assertEqual(await p.first(TABLE), 1)
            with self.assertRaises(Gone):
                await p.first(TABLE)

    async def test_a_program_that_prints_no_packets_gets_no_more_calls(self):
        async with Store(stand_in("receive()\nprint('** syntax 0', flush=True)\nreceive()")) as store:
            for _ in range(2):
                with self.assertRaises(Gone) as gone:
                    await Process(store, "p", Pid(0)).first(TABLE)
                self.assertIn("start it with --external", gone.exception.reason)

    async def test_closing_waits_for_the_calls_that_were_sent(self):
        async with Store(ECHO) as store:
            calls = [asyncio.create_task(Process(store, "p", Pid(0)).lookup(TABLE, it)) for it in range(100)]
            await asyncio.sleep(0)
            await store.close()
            self.assertEqual(await asyncio.gather(*calls), list(range(100)))
            with self.assertRaises(Gone):
                await store.ask("spawn p")

    async def test_a_store_that_is_not_open(self):
        store = Store(ECHO)
        with self.assertRaises(Gone) as gone:
            await store.ask("spawn p")
        self.assertIn("async with", gone.exception.reason)
        await store.close()

    async def test_other_values_and_lines_are_refused_before_they_are_sent(self):
        async with Store(ECHO) as store:
            with self.assertRaises(TypeError):
                await Process(store, "p", Pid(0)).lookup(TABLE, "text")
            with self.assertRaises(ValueError):
                await store.ask("p a(t)\np b(t)")
            with self.assertRaises(ValueError):
                await store.spawn("Anna")
            self.assertEqual(await Process(store, "p", Pid(0)).first(TABLE), 0)
