"""What CI uses of the tool tools/mutants: the crates of a tree, the prover, and the output of `rt
ci`."""
import os
import sys

sys.path.insert(0, f"{os.path.dirname(os.path.realpath(__file__))}/../../tools")

from mutants.checks import Prover
from mutants.crates import PARTS, crates_of, read
from mutants.lanes import Log

__all__ = ["PARTS", "Log", "Prover", "crates_of", "read"]
