"""Where a store is."""

import os
import unittest
from unittest import mock

from helpers import LIBRARY
from yoyoash import Atom, Store, finding

TABLE = Atom("t")


@unittest.skipUnless(LIBRARY, "no libyoyoash.so found: set YOYOASH_LIBRARY")
class Opening(unittest.TestCase):
    def test_it_is_the_usual_store(self):
        with Store() as store, Store.in_process() as near:
            self.assertIs(type(store._way), type(near._way))

    def test_a_pipe_is_the_usual_store_if_no_library_is_here(self):
        with mock.patch.object(finding, "library", side_effect=finding.Unavailable), mock.patch.dict(os.environ):
            os.environ.pop("YOYOASH_LIBRARY", None)
            with Store() as store, Store.pipe() as far:
                self.assertIs(type(store._way), type(far._way))
            os.environ["YOYOASH_LIBRARY"] = "/nowhere/libyoyoash.so"
            with self.assertRaises(finding.Unavailable):
                Store()
