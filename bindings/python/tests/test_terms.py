"""Terms and their texts."""

import collections
import copy
import enum
import pickle
import random
import unittest

from helpers import any_term, printed
from yoyoash import Atom, Pid, Tid, parse, spell


class Terms(unittest.TestCase):
    def test_ten_thousand_terms_survive_a_round_trip(self):
        numbers = random.Random(26)
        for _ in range(10_000):
            term = any_term(numbers)
            self.assertEqual(parse(spell(term)), term)
            self.assertEqual(parse(printed(term)), term)
            self.assertEqual(eval(repr(term)), term)

    def test_more_words_than_are_kept(self):
        words = [kind for number in range(3_000) for kind in (Atom(f"a{number}"), Atom(f"A {number}"), Pid(number))]
        for _ in range(2):
            self.assertEqual(parse(printed(words)), words)

    def test_a_copied_atom_is_whole(self):
        atom = Atom("it's")
        for other in [copy.deepcopy(atom), pickle.loads(pickle.dumps(atom))]:
            self.assertEqual((other, spell(other)), (atom, "'it\\'s'"))

    def test_only_the_atom_false_is_false(self):
        self.assertEqual([bool(Atom(text)) for text in ("true", "false", "", "undefined")], [True, False, True, True])

    def test_deep_terms_need_no_recursion(self):
        text = "[" * 50_000 + "]" * 50_000
        self.assertEqual(spell(parse(text)), text)

    def test_kinds_are_never_equal(self):
        terms = [3, Pid(3), Tid(3), Atom("3"), b"3", (3,), [3]]
        for place, term in enumerate(terms):
            self.assertEqual([place], [other for other, it in enumerate(terms) if it == term])

    def test_a_value_of_a_derived_type_is_spelled_as_its_base(self):
        point, colour = collections.namedtuple("Point", "x y"), enum.IntEnum("Colour", "RED GREEN")
        self.assertEqual(spell([point(1, (colour.GREEN,)), []]), "[{1,{2}},[]]")

    def test_other_values_are_refused_before_they_are_spelled(self):
        for value in [True, "text", 1.5, None, {}]:
            for term in [value, [value]]:
                with self.assertRaises(TypeError):
                    spell(term)
        for value in [2**127, -(2**127) - 1]:
            with self.assertRaises(ValueError):
                spell((value,))
        with self.assertRaises(TypeError):
            Atom(b"k")
        for make in [lambda: Atom("k\np delete(t)"), lambda: Atom("é"), lambda: Atom("a" * 256), lambda: Pid(-1), lambda: Tid(2**32)]:
            with self.assertRaises(ValueError):
                make()

    def test_other_texts_are_not_terms(self):
        broken = ["", "{", "}", "{1]", "{1]x", "[1", "1 2", "A", "'a", "1,2", "<<1>", "?", "'", "<", "#", "-"]
        broken += ["[1,]", "{,}", "<<1,,2>>", "<<256>>"]
        # Python reads these as numbers.
        numbers = ["\u00b2", "\u0663", "[{\u0663,1}]", "1_0", "[1_0]", "[{1,1_0}]", "[{1,-1_0}]", " 1", "+1"]
        for text in [*broken, *numbers]:
            with self.subTest(text), self.assertRaises(ValueError):
                parse(text)
