"""What differs for a store in this process."""

import collections
import enum
import random
import threading
import unittest
import weakref

from helpers import EXTENSION, LIBRARY, any_term, without_extension
from yoyoash import Atom, BadArg, Gone, NoProcess, Store, Syntax, SystemLimit, Tid


@unittest.skipUnless(LIBRARY, "no libyoyoash.so found: set YOYOASH_LIBRARY")
class InProcess(unittest.TestCase):
    """By the extension if there is one, else by ctypes."""

    def open(self, **limits):
        return Store.in_process(**limits)

    def table(self, store):
        p = store.spawn("p")
        return p, p.new(Atom("t"), [Atom("named_table")])

    def test_limits(self):
        with self.open(max_processes=1, max_tables=1, max_objects=2) as store:
            p, t = self.table(store)
            for refused in [lambda: store.spawn("q"), lambda: p.new(Atom("u"), []), lambda: p.insert(t, [(1,), (2,), (3,)])]:
                with self.assertRaises(SystemLimit):
                    refused()
            with self.assertRaises(BadArg):
                store.spawn("p")
            self.assertEqual(p.tab2list(t), [])
        for limit in [-1, 2**32]:
            with self.assertRaises(ValueError):
                self.open(max_objects=limit)

    def test_a_thousand_terms_survive_a_round_trip(self):
        numbers = random.Random(7)
        with self.open() as store:
            p, t = self.table(store)
            for number in range(1_000):
                term = any_term(numbers)
                p.insert(t, (number, term))
                self.assertEqual(p.lookup(t, number), [(number, term)])

    def test_a_reply_longer_than_the_buffer_is_whole_and_its_call_is_done_once(self):
        with self.open() as store:
            p, t = self.table(store)
            p.insert(t, (0, list(range(10_000))))
            self.assertEqual(p.take(t, 0), [(0, list(range(10_000)))])
            self.assertEqual(p.take(t, 0), [])

    def test_replies_about_as_long_as_the_buffer(self):
        with self.open() as store:
            p, t = self.table(store)
            for size in range(4_050, 4_110):
                p.insert(t, (0, bytes(size)))
                self.assertEqual(p.lookup(t, 0), [(0, bytes(size))])

    def test_deep_arguments(self):
        def deep(levels):
            term = 0
            for _ in range(levels - 1):
                term = (term,)
            return term

        with self.open() as store:
            p, t = self.table(store)
            for levels in range(120, 128):
                p.insert(t, deep(levels))
                self.assertEqual(p.lookup(t, deep(levels)[0]), [deep(levels)])
            for levels in (128, 129, 5_000):
                with self.assertRaises(Syntax) as refused:
                    p.insert(t, deep(levels))
                self.assertEqual(refused.exception.line, f"p insert('t',{'{' * (levels - 1)}0{'}' * (levels - 1)})")
                self.assertEqual((refused.exception.at, bool(refused.exception.reason)), (len("p insert('t',") + 127, True))

    def test_values_of_other_types_are_refused_before_the_call(self):
        with self.open() as store:
            p, t = self.table(store)
            for value, error in [(True, TypeError), ("text", TypeError), (1.5, TypeError), (2**127, ValueError), (-(2**127) - 1, ValueError)]:
                for term in [value, (1, value), [[value]]]:
                    with self.assertRaises(error):
                        p.insert(t, (0, term))
            self.assertEqual(p.info(t, Atom("size")), 0)

    def test_a_value_of_a_derived_type_is_sent_as_its_base(self):
        point, colour = collections.namedtuple("Point", "x y"), enum.IntEnum("Colour", "RED GREEN")
        with self.open() as store:
            p, t = self.table(store)
            p.insert(t, point(1, [colour.GREEN, (colour.RED,)]))
            self.assertEqual(p.lookup(t, 1), [(1, [2, (1,)])])

    def test_refused_calls_have_their_line_and_a_reason(self):
        with self.open(max_objects=1) as store:
            p, t = self.table(store)
            with self.assertRaises(SystemLimit) as refused:
                p.insert(t, [(1,), (Atom("it's"), [b"x"])])
            self.assertEqual(str(refused.exception), "system_limit: p insert('t',[{1},{'it\\'s',[<<120>>]}]) (object limit reached; open the store with a larger max_objects=)")
            p.exit()
            with self.assertRaises(NoProcess) as refused:
                p.receive()
            self.assertEqual((refused.exception.line, bool(refused.exception.reason)), ("p receive()", True))

    def test_refused_lines_have_their_class_and_a_reason(self):
        calls = {
            "p lookup(u,a)": BadArg,
            "p lookup_element(t,a,0)": BadArg,
            "p insert(t,[{1},{2},{3}])": SystemLimit,
            "p lookup(t,1.5)": Syntax,
            "q lookup(t,a)": NoProcess,
            "spawn p": BadArg,
            "spawn q": SystemLimit,
            "exit p": Atom,
            "p lookup(t,a)": NoProcess,
        }
        with self.open(max_processes=1, max_objects=2) as store:
            self.table(store)
            answers = store.ask_all(list(calls))
            self.assertEqual([type(it) for it in answers], list(calls.values()))
            self.assertTrue(all(it.reason for it in answers if not isinstance(it, Atom)))
            self.assertEqual(answers[0].reason, "argument 1: no such table")

    def test_lines(self):
        with self.open() as store:
            self.table(store)
            self.assertEqual(store.ask("\tp  new ( u , [ ] ) "), Tid(1))
            for line, at in [("p lookup(t,{a)", 13), ("p lookup(t,A)", 11), ("p lookup(t,a)(", 13), ("grow t", 6), ("p lookup(t,a}", 12)]:
                with self.assertRaises(Syntax) as refused:
                    store.ask(line)
                self.assertEqual(refused.exception.at, at)
            for line in ["q receive()", "exit q"]:
                with self.assertRaises(NoProcess):
                    store.ask(line)
            self.assertEqual(store.ask("p receive()"), [])

    def test_calls_on_a_closed_store_are_gone(self):
        store = self.open()
        p, t = self.table(store)
        store.close()
        store.close()
        for call in [lambda: p.lookup(t, 1), lambda: store.spawn("q"), p.exit]:
            with self.assertRaises(Gone) as gone:
                call()
            self.assertEqual(gone.exception.reason, "the store is closed")

    def test_a_dropped_store_warns(self):
        store = self.open()
        with self.assertWarns(ResourceWarning):
            del store

    def test_threads_share_a_store(self):
        wrong = []

        def work(store, p, t, start):
            for number in range(start, start + 200):
                p.insert(t, (number, [number] * (number * 7 % 1_500)))
                if p.lookup(t, number) != [(number, [number] * (number * 7 % 1_500))]:
                    wrong.append(number)
                try:
                    p.lookup(Atom("nowhere"), number)
                except BadArg as refused:
                    if refused.reason != "argument 1: no such table":
                        wrong.append(refused)
            store.spawn(f"p{start}").new(Atom("own"), [])

        with self.open() as store:
            p, t = self.table(store)
            threads = [threading.Thread(target=work, args=(store, p, t, 1_000 * start)) for start in range(4)]
            for it in threads:
                it.start()
            for it in threads:
                it.join()
            self.assertEqual((wrong, p.info(t, Atom("size"))), ([], 800))

    def test_a_store_moves_to_another_thread(self):
        opened = []
        thread = threading.Thread(target=lambda: opened.append(self.open()))
        thread.start()
        thread.join()
        with opened[0] as store:
            p, t = self.table(store)
            self.assertIs(p.insert(t, (1, 2)), True)

    def test_a_pipeline(self):
        with self.open() as store:
            p, t = self.table(store)
            with p.pipeline() as calls:
                for number in range(100):
                    calls.insert(t, (number,))
            self.assertEqual(calls.answers, [True] * 100)

    def test_a_pipeline_sends_what_it_collected(self):
        with self.open() as store:
            p, t = self.table(store)
            numbers = [1, 2]
            with p.pipeline() as calls:
                calls.insert(t, (0, numbers))
                numbers.append(3)
                calls.lookup(Atom("nowhere"), 0)
                calls.lookup(t, 0)
            self.assertEqual([type(it) for it in calls.answers], [bool, BadArg, list])
            self.assertEqual(calls.answers[1].line, "p lookup('nowhere',0)")
            self.assertEqual((calls.answers[1].reason, calls.answers[2]), ("argument 1: no such table", [(0, [1, 2])]))

    def test_stores_are_freed(self):
        with self.open() as store:
            p, t = self.table(store)
            dropped = weakref.ref(store), weakref.ref(store._way)
        del p, t, store
        self.assertEqual([it() for it in dropped], [None, None])


@unittest.skipUnless(EXTENSION, "the extension was not built")
class WithoutExtension(InProcess):
    """By ctypes."""

    def open(self, **limits):
        with without_extension():
            return super().open(**limits)
