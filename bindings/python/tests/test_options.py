"""Options by keyword, names as strings, and replies that are a bool: over a pipe, in this process and with asyncio."""

import unittest

from helpers import LIBRARY, PROGRAM
from yoyoash import FALSE, TRUE, Atom, BadArg, NoProcess, Pid, Reason, Store, Tid, aio

# The keywords of `new`, what they are as options, and what `info` says of the table.
TYPES = "set", "bag", "duplicate_bag"
PROTECTIONS = "public", "protected", "private"


@unittest.skipUnless(PROGRAM, "no ets_script found: set YOYOASH_PROGRAM")
class ByPipe(unittest.TestCase):
    def open(self):
        return Store.pipe()

    def setUp(self):
        store = self.open()
        self.addCleanup(store.close)
        self.anna, self.ben = store.spawn("anna"), store.spawn("ben")

    def about(self, table):
        return [self.anna.info(table, it) for it in ("type", "protection", "named_table", "keypos", "heir")]

    def test_a_table_without_options(self):
        table = self.anna.new("t")
        self.assertEqual(self.about(table), [Atom("set"), Atom("protected"), False, 1, Atom("none")])
        self.assertEqual((type(table), self.anna.info(table, "name")), (Tid, Atom("t")))

    def test_each_keyword(self):
        for place, kind in enumerate(TYPES):
            for protection in PROTECTIONS:
                name = f"{kind} {protection}"
                table = self.anna.new(name, type=kind, protection=protection, named=True, keypos=2 + place, heir=(self.ben.pid, 1))
                self.assertEqual((table, self.about(table)), (Atom(name), [Atom(kind), Atom(protection), True, 2 + place, self.ben.pid]))

    def test_keywords_override_the_list(self):
        table = self.anna.new(Atom("t"), [Atom("bag"), Atom("private"), (Atom("keypos"), 3)], type="set", keypos=2)
        self.assertEqual(self.about(table), [Atom("set"), Atom("private"), False, 2, Atom("none")])

    def test_wrong_options_are_refused_and_nothing_changes(self):
        for options in {"type": "bagg"}, {"protection": "open"}, {"keypos": 0}, {"keypos": 2**32}, {"heir": (5, 1)}:
            with self.assertRaises(BadArg) as refused:
                self.anna.new("t", named=True, **options)
            self.assertIs(refused.exception.code, Reason.BAD_OPTION)
        for options in Atom("bag"), (), [Atom("bagg")], 5:
            with self.assertRaises(BadArg):
                self.anna.new(Atom("t"), options)
        for wrong in {"type": ""}, {"type": "é"}, {"keypos": "1"}, {"keypos": True}:
            with self.assertRaises((BadArg, TypeError, ValueError)):
                self.anna.new("t", named=True, **wrong)
        self.assertEqual(self.anna.whereis("t"), Atom("undefined"))

    def test_the_heir(self):
        table = self.anna.new("t")
        self.assertIs(self.anna.setopts(table, heir=(self.ben.pid, (1, b"x"))), True)
        self.assertEqual(self.anna.info(table, "heir"), self.ben.pid)
        self.assertIs(self.anna.setopts(table, heir=None), True)
        self.assertEqual(self.anna.info(table, "heir"), Atom("none"))
        heir = (Atom("heir"), self.ben.pid, 2)
        for options in heir, [heir], []:
            self.assertIs(self.anna.setopts(table, options), True)
            self.assertEqual(self.anna.info(table, "heir"), self.ben.pid)
        self.anna.setopts(table, (Atom("heir"), Atom("none")), heir=(self.ben.pid, 3))
        self.anna.exit()
        self.assertEqual(self.ben.receive(), [(Atom("ETS-TRANSFER"), table, self.anna.pid, 3)])
        for wrong in 5, [heir, 5], ():
            with self.assertRaises(BadArg):
                self.ben.setopts(table, wrong)

    def test_an_heir_is_a_process_or_its_pid(self):
        for heir in self.ben, self.ben.pid:
            table = self.anna.new("t", heir=(heir, 1))
            self.assertEqual(self.anna.info(table, "heir"), self.ben.pid)
            self.anna.setopts(table, heir=None)
            self.anna.setopts(table, heir=(heir, 2))
            self.assertEqual(self.anna.info(table, "heir"), self.ben.pid)
        for wrong in (), (self.ben,), (5, 1), (self.ben, 1, 2):
            with self.assertRaises(BadArg):
                self.anna.new("t", heir=wrong)
        # The data of the message is a term. A process is not one.
        with self.assertRaises(TypeError):
            self.anna.new("t", heir=(self.ben, self.ben))

    def test_a_with_ends_a_process(self):
        with self.assertRaises(KeyError), self.anna as same:
            self.assertIs(same, self.anna)
            table = same.new("t", heir=(self.ben, 1))
            raise KeyError
        self.assertEqual(self.ben.receive(), [(Atom("ETS-TRANSFER"), table, self.anna.pid, 1)])
        with self.assertRaises(NoProcess):
            self.anna.receive()
        with self.ben:
            self.ben.exit()
        with self.open() as store, store.spawn("carl"):
            store.close()

    def test_names_are_strings_or_atoms(self):
        self.anna.new("t", named=True)
        self.anna.insert("t", [(1, 2), (3, 4)])
        self.assertEqual((self.ben.lookup("t", 1), self.ben.lookup(Atom("t"), 1)), ([(1, 2)], [(1, 2)]))
        self.assertEqual((self.ben.info("t", "size"), self.ben.info("t", Atom("size"))), (2, 2))
        self.assertEqual(self.ben.whereis("t"), self.ben.whereis(Atom("t")))
        self.assertEqual(sorted(self.ben.walk("t")), [1, 3])
        with self.ben.fixed("t"):
            self.assertIs(self.ben.info("t", "fixed"), True)
        for name in "é", "x" * 256, "a\nb":
            with self.assertRaises(ValueError):
                self.anna.lookup(name, 1)
        with self.assertRaises(BadArg) as refused:
            self.anna.info("t", "bytes")
        self.assertIs(refused.exception.code, Reason.BAD_ITEM)
        for wrong in 5, b"t", [], (1,):
            with self.assertRaises(BadArg):
                self.anna.info("t", wrong)
        # Anywhere else a string is not a term.
        with self.assertRaises(TypeError):
            self.anna.insert("t", (1, "text"))

    def yes_and_no(self, process, table):
        """Makes the calls whose replies are True or False, and one that is neither."""
        return [
            process.insert(table, [(1, 2), (3, 4)]), process.insert_new(table, (1, 2)), process.member(table, 1),
            process.member(table, 9), process.update_element(table, 1, (2, 5)), process.update_element(table, 9, (2, 5)),
            process.delete_object(table, (1, 5)), process.match_delete(table, (3, 9)), process.safe_fixtable(table, True),
            process.info(table, "fixed"), process.safe_fixtable(table, False), process.info(table, "fixed"),
            process.info(table, "named_table"), process.info(Atom("nowhere"), "named_table"), process.setopts(table, heir=None),
            process.delete(table, 1), process.delete_all_objects(table), process.delete(table),
        ]  # fmt: skip

    WANTED = [True, False, True, False, True, False, True, True, True, True, True, False, False, Atom("undefined"), True, True, True, True]

    def test_replies_that_are_yes_or_no_are_bools(self):
        self.assertEqual([(type(it), it) for it in self.yes_and_no(self.anna, self.anna.new("t"))], [(type(it), it) for it in self.WANTED])
        with self.anna.pipeline() as calls:
            self.yes_and_no(calls, self.anna.new("t"))
        self.assertEqual([(type(it), it) for it in calls.answers], [(type(it), it) for it in self.WANTED])
        table = self.anna.new("t")
        self.assertIs(self.anna.give_away(table, self.ben.pid, 1), True)
        self.assertIs(self.anna.exit(), True)

    def test_atoms_in_objects_and_names_stay_atoms(self):
        table = self.anna.new("true", named=True)
        self.anna.insert(table, (TRUE, FALSE))
        self.assertEqual((self.anna.lookup(table, TRUE), self.anna.info(table, "name")), ([(TRUE, FALSE)], TRUE))
        self.assertEqual((table, self.anna.lookup_element(table, TRUE, 2)), (TRUE, FALSE))
        for value in True, False:
            with self.assertRaises(TypeError):
                self.anna.insert(table, (1, value))

    def test_a_fix_is_a_bool_or_an_atom(self):
        table = self.anna.new("t")
        for fix in True, TRUE:
            self.assertIs(self.anna.safe_fixtable(table, fix), True)
        for fix in False, FALSE:
            self.anna.safe_fixtable(table, fix)
        self.assertIs(self.anna.info(table, "fixed"), False)
        with self.assertRaises(BadArg) as refused:
            self.anna.safe_fixtable(table, 1)
        self.assertIs(refused.exception.code, Reason.NOT_A_BOOLEAN)


@unittest.skipUnless(LIBRARY, "no libyoyoash.so found: set YOYOASH_LIBRARY")
class InProcess(ByPipe):
    def open(self):
        return Store.in_process()


@unittest.skipUnless(PROGRAM, "no ets_script found: set YOYOASH_PROGRAM")
class Awaited(unittest.IsolatedAsyncioTestCase):
    async def test_options_names_and_bools(self):
        async with aio.Store() as store:
            anna = await store.spawn("anna")
            self.assertEqual(await anna.new("t", type="bag", named=True, heir=(Pid(7), 1)), Atom("t"))
            self.assertIs(await anna.insert("t", (1, 2)), True)
            self.assertEqual([await anna.info("t", it) for it in ("type", "named_table", "heir")], [Atom("bag"), True, Pid(7)])
            self.assertIs(await anna.setopts("t", heir=None), True)
            self.assertEqual((await anna.info("t", "heir"), await anna.exit()), (Atom("none"), True))
            carl = await store.spawn("carl")
            async with await store.spawn("ben") as ben:
                table = await ben.new("t", heir=(carl, 1))
            self.assertEqual(await carl.receive(), [(Atom("ETS-TRANSFER"), table, ben.pid, 1)])
            async with ben, carl:
                await store.close()
