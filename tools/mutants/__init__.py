"""Tries the mutants of the crates of a tree, many in one check."""
