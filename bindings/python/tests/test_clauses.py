"""Match specifications and patterns of Python values: in this process, over a pipe and with asyncio."""

import re
import unittest
from functools import reduce
from operator import or_
from typing import get_args

from helpers import LIBRARY, PROGRAM, REPOSITORY
from yoyoash import ANY, BINDINGS, OBJECT, TRUE, Atom, BadArg, Clause, Fault, Pid, Reason, Store, Variable, aio, encode, function
from yoyoash.clauses import ALWAYS, pattern_of, spec_of
from yoyoash.expressions import Function

X, Y = Variable(1), Variable(2)
ROWS = [(1, b"a"), (2, b"b"), (3, b"c"), (4, (4, 5)), (5, Atom("$1"))]


@unittest.skipUnless(LIBRARY, "no libyoyoash.so found: set YOYOASH_LIBRARY")
class InProcess(unittest.TestCase):
    def setUp(self):
        store = self.open()
        self.addCleanup(store.close)
        self.p = store.spawn("p")
        self.table = self.p.new("t", type="bag")
        self.p.insert(self.table, ROWS)

    def open(self):
        return Store.in_process()

    def found(self, *words, **options):
        return sorted(self.p.select(self.table, Clause(*words, **options)), key=repr)

    def keys(self, *conditions):
        return self.found((X, Y), *conditions, result=X)

    def test_a_clause_without_a_result_is_about_the_objects(self):
        clause = Clause((X, ANY), X > 3)
        self.assertEqual(self.found((X, ANY), X > 3), ROWS[3:])
        self.assertEqual((self.p.select_count(self.table, clause), self.p.select_delete(self.table, clause)), (2, 2))
        self.assertEqual(self.p.info(self.table, "size"), 3)

    def test_heads(self):
        self.assertEqual(self.found(ANY), ROWS)
        self.assertEqual(self.found((2, ANY)), ROWS[1:2])
        self.assertEqual(self.found((X, (X, ANY))), ROWS[3:4])
        self.assertEqual(self.found((ANY, (ANY, 5))), ROWS[3:4])
        self.assertEqual(self.found((ANY, ANY, ANY)), [])

    def test_each_operator(self):
        conditions = {
            (1,): X < 2, (1, 2): X <= 2, (4, 5): X > 3, (3, 4, 5): 3 <= X, (2,): X == 2, (1, 3, 4, 5): X != 2,
            (2, 3): (X > 1) & (X < 4), (1, 5): (X == 1) | (X == 5), (4,): ~(X < 4) & ~(X > 4), (3,): (X + 1) * 2 - 3 == 5,
            (5,): 10 - X == 5, (1, 2, 3, 4): 2 * X < 1 + X + 4,
        }  # fmt: skip
        for wanted, condition in conditions.items():
            with self.subTest(repr(condition)):
                self.assertEqual(self.keys(condition), list(wanted))

    def test_functions(self):
        self.assertEqual(self.keys(function("is_binary", Y), X > 1), [2, 3])
        self.assertEqual(self.keys(function("element", 2, Y) == 5), [4])
        self.assertEqual(self.keys(function("rem", X, 2) == 0), [2, 4])
        self.assertEqual(self.found((X, Y), X < 3, result=function("div", X * 7, 2)), [3, 7])
        table = (REPOSITORY / "docs/match-specifications.md").read_text().partition("| Function |")[2].partition("\n\n")[0]
        names = [re.findall(r"`([^`]+)`", row.split("|")[1].partition(": ")[0]) for row in table.splitlines()[2:]]
        self.assertEqual({it for row in names for it in row}, set(get_args(Function)))
        for name in get_args(Function):
            self.assertEqual(function(name, X).term, (Atom(name), X.term))
        with self.assertRaisesRegex(ValueError, "is not a function of match specifications"):
            function("exit", X)

    def test_results(self):
        clause = {"result": (X, [Y, {}.get(1, True)])}
        self.assertEqual(self.found((X, Y), X < 2, **clause), [(1, [b"a", Atom("true")])])
        self.assertEqual(self.found((Y, X), X == b"a", result=BINDINGS), [[b"a", 1]])
        self.assertEqual(self.found((X, ANY), X == 1, result=(OBJECT, X)), [((1, b"a"), 1)])
        self.assertEqual(self.found((1, ANY), result=Atom("found")), [Atom("found")])
        self.assertEqual(self.p.select_count(self.table, Clause((X, ANY), result=X > 2)), 3)

    def test_data_never_becomes_a_variable_or_a_function(self):
        for data in (4, 5), Atom("$1"), [X.term], (Atom("exit"), 1), ((1,),), Atom("$_"), [], (), True and Atom("true"):
            self.p.insert(self.table, (9, data))
            self.assertEqual(self.found((X, Y), X == 9, Y == data, result=(data, Y, [data])), [(data, data, [data])])
            self.assertEqual(self.found((9, ANY), result=data), [data])
            self.p.delete(self.table, 9)

    def test_several_clauses(self):
        spec = [Clause((1, ANY), result=Atom("first")), Clause((X, ANY), X > 4), (Atom("_"), [], [Atom("other")])]
        self.assertEqual(sorted(self.p.select(self.table, spec), key=repr), [(5, Atom("$1")), Atom("first"), *[Atom("other")] * 3])

    def test_terms_are_specifications_and_patterns_as_before(self):
        spec = [((Atom("$1"), Atom("_")), [(Atom("<"), Atom("$1"), 3)], [Atom("$1")])]
        self.assertEqual(sorted(self.p.select(self.table, spec)), [1, 2])
        self.assertEqual(self.p.match(self.table, (2, Atom("$1"))), [[b"b"]])
        for wrong in [], 5, (), Atom("x"), [5]:
            with self.assertRaises(BadArg) as refused:
                self.p.select(self.table, wrong)
            self.assertEqual((refused.exception.code, refused.exception.argument), (Reason.NOT_A_SPECIFICATION, 2))

    def test_patterns(self):
        self.assertEqual(self.p.match(self.table, (2, X)), [[b"b"]])
        self.assertEqual(self.p.match(self.table, (Y, (X, ANY))), [[4, 4]])
        self.assertEqual(self.p.match_object(self.table, (ANY, b"c")), [(3, b"c")])
        self.assertEqual(len(self.p.match_object(self.table, ANY)), 5)
        self.assertIs(self.p.match_delete(self.table, (3, ANY)), True)
        with self.p.pipeline() as calls:
            calls.match(self.table, (2, X))
            calls.select_delete(self.table, Clause((X, ANY), X < 3))
        self.assertEqual(calls.answers, [[[b"b"]], 2])

    def test_a_chain_of_a_thousand_conditions_is_not_deep(self):
        self.assertEqual(self.keys(reduce(or_, [X == number for number in range(3, 1_003)])), [3, 4, 5])
        with self.assertRaises(Fault) as refused:
            self.keys(reduce(lambda sum, it: sum + it, [X] * 200) > 1)
        self.assertIs(refused.exception.code, Reason.TOO_DEEP)


@unittest.skipUnless(PROGRAM, "no ets_script found: set YOYOASH_PROGRAM")
class ByPipe(InProcess):
    def open(self):
        return Store.pipe()


@unittest.skipUnless(PROGRAM, "no ets_script found: set YOYOASH_PROGRAM")
class Awaited(unittest.IsolatedAsyncioTestCase):
    async def test_clauses_and_patterns(self):
        async with aio.Store() as store:
            p = await store.spawn("p")
            table = await p.new("t", named=True)
            await p.insert("t", ROWS)
            self.assertEqual(await p.select(table, Clause((X, b"b"), result=X)), [2])
            self.assertEqual(await p.match("t", (3, X)), [[b"c"]])
            self.assertEqual(await p.select_delete(table, Clause((X, ANY), X > 1)), 4)


class Refused(unittest.TestCase):
    def test_an_expression_has_no_truth_of_its_own(self):
        for wrong in [lambda: X < 1 or X > 3, lambda: 1 < X < 3, lambda: not X, lambda: X in [1, 2], lambda: bool(X == X)]:
            with self.assertRaisesRegex(TypeError, "write &, | and ~"):
                wrong()

    def test_a_variable_that_the_head_does_not_have(self):
        for make in lambda: Clause((X, ANY), Y > 1), lambda: Clause(ANY, result=Y), lambda: Clause((X,), result=(X, [Y])):
            with self.assertRaisesRegex(ValueError, r"^Variable\(2\) is not in the head"):
                make()

    def test_a_condition_of_python_values(self):
        """The slip `end < now` with numbers for both would find, and delete, every object."""
        for condition in True, False, 4 < 5, Atom("true"), None, "X > 1", (Atom(">"), Atom("$1"), 1):
            with self.assertRaisesRegex(TypeError, "is not a condition"):
                Clause((X, ANY), X > 1, condition)

    def test_an_atom_in_a_head_that_would_match_other_terms(self):
        for atom in Atom("_"), Atom("$0"), Atom("$17"), Atom("$100000000"):
            for head in (X, atom), (X, [(atom,)]):
                with self.assertRaisesRegex(ValueError, "write ANY, or a variable and a condition"):
                    Clause(head)
                with self.assertRaisesRegex(ValueError, "write ANY, or a variable and a condition"):
                    pattern_of(head)
        for atom in Atom("$01"), Atom("$"), Atom("$_"), Atom("$$"), Atom("$100000001"), Atom("__"):
            self.assertEqual(pattern_of((X, atom)), (X.term, atom))

    def test_other_expressions_in_a_head(self):
        for wrong in X + 1, OBJECT, BINDINGS:
            with self.assertRaisesRegex(ValueError, "is in a head"):
                Clause((X, wrong))

    def test_numbers_of_variables(self):
        for number in -1, 100_000_001, True, "1", 1.0, None, 10**5_000:
            with self.assertRaisesRegex(ValueError, "is not the number of a variable"):
                Variable(number)

    def test_values_that_contain_themselves_or_are_too_deep(self):
        looped, deep = [X], X
        looped.append(looped)
        for _ in range(5_000):
            deep = (deep,)
        for value in looped, deep:
            for make in lambda: Clause((X, value)), lambda: Clause((X,), X == value), lambda: Clause((X,), result=value), lambda: pattern_of(value):
                with self.assertRaisesRegex(ValueError, "more than 128 levels"):
                    make()

    def test_expressions_are_not_terms(self):
        for value in X, X + 1, ANY, Clause(ANY), (1, X):
            with self.assertRaisesRegex(TypeError, "is not a term"):
                encode(value)

    def test_a_value_that_is_no_term_is_refused_before_it_is_sent(self):
        for clause in Clause((X, "text")), Clause((X, ANY), X == 1.5), Clause(ANY, result={}):
            with self.assertRaisesRegex(TypeError, "is not a term"):
                encode(spec_of(clause, ALWAYS))

    def test_what_they_print(self):
        self.assertEqual([repr(it) for it in (X, ANY, X + 1)], ["Variable(1)", "ANY", "Expression((Atom('+'), Atom('$1'), 1))"])
        self.assertEqual(repr(Clause((X, 5), X > 1)), "<clause (Atom('$1'), 5) [(Atom('>'), Atom('$1'), 1)]>")
        self.assertEqual(spec_of(Clause((X,), Pid(1) == X), OBJECT), [((X.term,), [(Atom("=:="), X.term, Pid(1))], [Atom("$_")])])
        self.assertEqual(spec_of(Clause(ANY), ALWAYS), [(Atom("_"), [], [TRUE])])
