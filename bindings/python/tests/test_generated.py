"""The methods are those that generate.py makes from docs/calls.md."""

import importlib.util
import inspect
import re
import sys
import unittest

from helpers import PACKAGE, REPOSITORY
from yoyoash import ABSENT, CALLS, Pipeline, Process, Store, aio, calls

PAGE = (REPOSITORY / "docs/calls.md").read_text()


def generator():
    sys.dont_write_bytecode = True
    spec = importlib.util.spec_from_file_location("generate", PACKAGE / "generate.py")
    module = importlib.util.module_from_spec(spec)
    spec.loader.exec_module(module)
    return module


class Generated(unittest.TestCase):
    def test_the_committed_module_is_what_the_generator_makes(self):
        with open(calls.__file__) as module:
            self.assertEqual(module.read(), generator().module_of(PAGE), "run: python3 bindings/python/generate.py")

    def test_the_names_are_those_of_the_page(self):
        rows = re.findall(r"^\| (`[a-z0-9_]+\(.*?)\|", PAGE, re.M)
        self.assertEqual({name for row in rows for name in re.findall(r"`([a-z0-9_]+)\(", row)}, set(CALLS))
        self.assertFalse(hasattr(Process, "lokup"))

    def test_no_method_of_a_process_hides_a_call(self):
        for kind, base in (Process, calls.Calls), (Pipeline, calls.CollectedCalls), (aio.Process, calls.AwaitedCalls):
            for name in CALLS:
                self.assertIs(getattr(kind, name), getattr(base, name))
                self.assertIn(f"{name}(", getattr(kind, name).__doc__)

    def test_each_method_has_its_parameters(self):
        signatures = {name: list(inspect.signature(getattr(Process, name)).parameters) for name in ("lookup", "delete", "receive")}
        self.assertEqual(signatures, {"lookup": ["self", "table", "key"], "delete": ["self", "table", "key"], "receive": ["self"]})
        self.assertIs(inspect.signature(Process.delete).parameters["key"].default, ABSENT)
        with self.assertRaises(TypeError):
            Process.lookup(None, 1)

    def test_each_form_sends_its_own_terms(self):
        class Recorder(calls.CollectedCalls):
            def __init__(self):
                self.sent = []

            def _collect(self, *words):
                self.sent.append(words)

            _collect_truth = _collect

        it = Recorder()
        it.delete(1)
        it.delete(1, 2)
        it.lookup_element(1, 2, 3)
        it.lookup_element(1, 2, 3, default=4)
        it.receive()
        wanted = [("delete", 1), ("delete", 1, 2), ("lookup_element", 1, 2, 3), ("lookup_element", 1, 2, 3, 4), ("receive",)]
        self.assertEqual(it.sent, wanted)

    def test_forms_that_are_not_beginnings_of_each_other_are_refused(self):
        with self.assertRaises(SystemExit):
            generator().module_of("| Call | Reply |\n|---|---|\n| `new(A)` | x |\n| `new(B,A)` | x |\n")

    def test_links_and_other_tables_stay_out(self):
        page = "| Call | Access | Reply |\n|---|---|---|\n| `a(T)` | no | see [b](c.md) |\n\n| Other | x |\n|---|---|\n| `c(T)` | y |\n"
        self.assertEqual(generator().calls_of(page), {"a": [(["T"], "see b")]})
        self.assertTrue(Store.__doc__)
