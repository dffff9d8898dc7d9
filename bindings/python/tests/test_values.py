"""Values that are refused, and what their exceptions say."""

import copy
import os
import pickle
import unittest
from unittest import mock

from helpers import LIBRARY, in_time, without_extension
from yoyoash import Atom, BadArg, Gone, Pid, Store, Tid, aio, encode, spell

TABLE = Atom("t")


class Values(unittest.TestCase):
    def test_the_text_of_an_exception_is_short_and_its_line_whole(self):
        line = f"p insert('t',{spell([1] * 500_000)})"
        for fault in BadArg(line, "badarg", "argument 1: no such table"), Gone(line, "gone", "an earlier call was interrupted"):
            self.assertLess(len(str(fault)), 220)
            self.assertLess(len(repr(fault)), 220)
            self.assertEqual((fault.line, str(fault)[:20]), (line, f"{fault.answer}: {line}"[:20]))
        for value in ["x" * 10_000, {1: "y" * 10_000}, 10**5_000, 2**200]:
            for make in encode, spell, Atom, Pid, Tid:
                if make is Atom or not isinstance(value, int) or value > 2**127:
                    with self.assertRaises((TypeError, ValueError)) as refused:
                        make(value)
                    self.assertLess(len(str(refused.exception)), 260)

    @unittest.skipUnless(LIBRARY, "no libyoyoash.so found: set YOYOASH_LIBRARY")
    def test_stores_and_processes_are_neither_copied_nor_pickled(self):
        with Store.in_process() as store:
            p = store.spawn("p")
            for it in store, p, p.pipeline(), aio.Store(["x"]), aio.Process(aio.Store(["x"]), "p", Pid(0)):
                for copied in copy.copy, copy.deepcopy, pickle.dumps:
                    with self.assertRaisesRegex(TypeError, "cannot be copied or pickled"):
                        copied(it)
            self.assertEqual(p.new(TABLE, [Atom("named_table")]), TABLE)
            for term in p.pid, TABLE:
                self.assertEqual((copy.copy(term), pickle.loads(pickle.dumps(term))), (term, term))

    def test_a_list_that_contains_itself_is_refused(self):
        rows = [1, (2,)]
        rows.append(rows)
        pairs = []
        pairs.append((pairs, [0]))
        shared = [1, (2,)]
        for encoder in encode, spell:
            for term in rows, pairs, [rows], pairs[0]:
                is_in_time, raised = in_time(lambda: encoder(term))
                self.assertEqual((is_in_time, [type(it) for it in raised]), (True, [ValueError]))
            # The same list in two places is a term.
            encoder([shared, shared, (shared, shared)])
        if LIBRARY:
            for context in without_extension(), mock.patch.object(os, "environ", os.environ):
                with context, Store.in_process() as store:
                    p = store.spawn("p")
                    table = p.new(TABLE, [])
                    self.assertEqual([type(it) for it in in_time(lambda: p.insert(table, (1, rows)))[1]], [ValueError])
                    self.assertEqual(p.tab2list(table), [])

    def test_limits_of_other_types_are_refused(self):
        for opening in Store, Store.in_process, Store.pipe, aio.Store:
            for name in "max_objects", "max_tables", "max_processes", "seed":
                for value in "5", 1.5, True, b"5":
                    with self.assertRaisesRegex(TypeError, f"{name}={value!r} is not an integer"):
                        opening(**{name: value})
                for value in -1, 2**64:
                    with self.assertRaisesRegex(ValueError, f"{name}={value!r} is out of range"):
                        opening(**{name: value})

    def test_a_refused_text_names_what_to_write(self):
        for make in encode, spell:
            with self.assertRaisesRegex(TypeError, r"^'x' is not a term: a binary is b'x', and an atom is Atom\('x'\)$"):
                make("x")
            with self.assertRaisesRegex(TypeError, r"^True is not a term: an atom is Atom\('true'\)$"):
                make(True)
            with self.assertRaisesRegex(TypeError, r"encode\(\)"):
                make("Zoë")

    @unittest.skipUnless(LIBRARY, "no libyoyoash.so found: set YOYOASH_LIBRARY")
    def test_a_wrong_name_of_a_process_names_the_rule(self):
        with Store.in_process() as store:
            for name in "Anna", "", "a b", "spawn", "a" * 256, "é":
                with self.assertRaisesRegex(ValueError, "a lower-case letter, then at most 254 letters, digits, _ and @"):
                    store.spawn(name)
            for name in 5, b"anna", Atom("anna"):
                with self.assertRaisesRegex(TypeError, "is not a string"):
                    store.spawn(name)
