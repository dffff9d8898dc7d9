"""Fixed tables and their traversals: by pipe, in this process and with asyncio."""

import asyncio
import contextlib
import unittest

from helpers import LIBRARY, PROGRAM
from yoyoash import Atom, BadArg, Gone, Store, aio

FIXED = Atom("fixed")


@unittest.skipUnless(PROGRAM, "no ets_script found: set YOYOASH_PROGRAM")
class ByPipe(unittest.TestCase):
    def open(self):
        return Store.pipe()

    def setUp(self):
        store = self.open()
        self.addCleanup(store.close)
        self.anna = store.spawn("anna")
        self.table = self.anna.new(Atom("t"), [])
        self.anna.insert(self.table, [(number, 0) for number in range(50)])

    def is_fixed(self):
        return self.anna.info(self.table, FIXED)

    def test_a_table_is_fixed_within_the_with(self):
        with self.anna.fixed(self.table) as table:
            self.assertEqual((table, self.is_fixed()), (self.table, True))
            with self.anna.fixed(table):
                pass
            self.assertTrue(self.is_fixed())
        self.assertFalse(self.is_fixed())

    def test_a_table_is_released_after_an_exception(self):
        with self.assertRaises(ZeroDivisionError), self.anna.fixed(self.table):
            raise ZeroDivisionError
        self.assertFalse(self.is_fixed())

    def test_a_table_may_be_deleted_within_the_with(self):
        with self.anna.fixed(self.table):
            self.anna.delete(self.table)
        with self.assertRaises(BadArg):
            with self.anna.fixed(self.table):
                self.fail("the table does not exist")

    def test_a_walk_visits_each_key_once(self):
        self.assertEqual(sorted(self.anna.walk(self.table)), list(range(50)))
        self.assertFalse(self.is_fixed())

    def test_a_walk_visits_the_keys_that_stay_while_others_go_and_come(self):
        seen = []
        for key in self.anna.walk(self.table):
            seen.append(key)
            self.anna.delete(self.table, key)
            self.anna.insert(self.table, [(1_000 + 10 * key + it, 0) for it in range(3)] if key < 50 else [])
        self.assertEqual(sorted(key for key in seen if key < 50), list(range(50)))
        self.assertEqual(len(seen), len(set(seen)))

    def test_a_walk_that_stops_early_releases_the_table(self):
        for _ in self.anna.walk(self.table):
            self.assertTrue(self.is_fixed())
            break
        self.assertFalse(self.is_fixed())

    def test_a_traversal_is_a_context_manager(self):
        for begin in self.anna.walk, self.anna.objects:
            with begin(self.table) as found:
                self.assertTrue(self.is_fixed())
                self.assertIn(next(found), [*range(50), *[(number, 0) for number in range(50)]])
            self.assertFalse(self.is_fixed())
            with begin(self.table) as found:
                self.assertEqual(len(list(found)), 50)
                self.assertFalse(self.is_fixed())
            with self.assertRaises(ZeroDivisionError), begin(self.table) as found:
                for _ in found:
                    raise ZeroDivisionError
            self.assertFalse(self.is_fixed())

    def test_a_traversal_is_used_once(self):
        found = self.anna.objects(self.table)
        next(found)
        with found:
            self.assertEqual(len(list(found)), 49)
        for used in found, self.anna.walk(self.table), self.anna.walk(self.table):
            used.close()
            used.close()
            self.assertEqual(list(used), [])
            with self.assertRaisesRegex(ValueError, "begin another"), used:
                self.fail("the traversal has ended")
        self.assertFalse(self.is_fixed())

    def test_a_traversal_that_is_dropped_releases_the_table(self):
        found = self.anna.walk(self.table)
        self.assertFalse(self.is_fixed())
        next(found)
        self.assertTrue(self.is_fixed())
        del found
        self.assertFalse(self.is_fixed())

    def test_a_table_or_a_store_may_end_within_a_traversal(self):
        with self.anna.objects(self.table) as found:
            next(found)
            self.anna.delete(self.table)
        with self.assertRaises(BadArg), self.anna.objects(self.table):
            self.fail("the table does not exist")
        with self.assertRaises(BadArg):
            next(self.anna.walk(self.table))
        other = self.anna.new(Atom("u"), [])
        self.anna.insert(other, [(number,) for number in range(9)])
        with self.assertRaises(Gone), self.anna.walk(other) as keys:
            next(keys)
            self.anna.store.close()
            next(keys)
        with self.anna.store:
            pass

    def test_objects(self):
        bag = self.anna.new(Atom("b"), [Atom("bag")])
        self.anna.insert(bag, [(key, value) for key in range(9) for value in range(3)])
        self.assertEqual(sorted(self.anna.objects(bag)), [(key, value) for key in range(9) for value in range(3)])
        self.assertEqual(list(self.anna.objects(self.anna.new(Atom("e"), []))), [])


@unittest.skipUnless(LIBRARY, "no libyoyoash.so found: set YOYOASH_LIBRARY")
class InProcess(ByPipe):
    def open(self):
        return Store.in_process()


@unittest.skipUnless(PROGRAM, "no ets_script found: set YOYOASH_PROGRAM")
class Awaited(unittest.IsolatedAsyncioTestCase):
    async def test_fixed_walk_and_objects(self):
        async with aio.Store() as store:
            anna = await store.spawn("anna")
            table = await anna.new(Atom("t"), [])
            await anna.insert(table, [(number, 0) for number in range(50)])
            async with anna.fixed(table):
                self.assertIs(await anna.info(table, FIXED), True)
            self.assertIs(await anna.info(table, FIXED), False)
            self.assertEqual(sorted([key async for key in anna.walk(table)]), list(range(50)))
            self.assertEqual(sorted([it async for it in anna.objects(table)]), [(number, 0) for number in range(50)])
            async with contextlib.aclosing(anna.walk(table)) as keys:
                async for _ in keys:
                    break
            self.assertIs(await anna.info(table, FIXED), False)
            for begin in anna.walk, anna.objects:
                async with begin(table) as found:
                    self.assertIs(await anna.info(table, FIXED), True)
                    async for _ in found:
                        break
                self.assertIs(await anna.info(table, FIXED), False)
                self.assertEqual([it async for it in found], [])
                with self.assertRaisesRegex(ValueError, "begin another"):
                    async with found:
                        self.fail("the traversal has ended")

    async def test_a_cancelled_traversal_releases_the_table(self):
        async with aio.Store() as store:
            anna = await store.spawn("anna")
            table = await anna.new("t")
            await anna.insert(table, [(number, 0) for number in range(50)])

            async def visit():
                async with anna.walk(table) as keys:
                    async for _ in keys:
                        await asyncio.sleep(60)

            task = asyncio.create_task(visit())
            while not await anna.info(table, "fixed"):
                await asyncio.sleep(0)
            task.cancel()
            with self.assertRaises(asyncio.CancelledError):
                await task
            self.assertIs(await anna.info(table, "fixed"), False)
