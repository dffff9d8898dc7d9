"""Builds a static library, which `rt ci` checks but does not build: from what the check in CI left
in its out/, or, if that does not exist, by proving it first.

    python3 static_library.py TREE CRATE"""
import os
import subprocess
import sys

from parts import CHECKED
from tools import Prover, crates_of


def archive_of(crate):
    return f"{crate.folder}/out/lib{crate.name}.a"


def build(prover, crate):
    rattle, _, *words = prover.words(crate, 1, None)
    if os.path.exists(f"{crate.folder}/{CHECKED}"):
        for word in ("--logic-built", "--jobs"):
            at = words.index(word)
            words = [*words[:at], *words[at + 2 :]]
        words += ["--crate-checked", CHECKED]
    words = [
        rattle,
        "build",
        *words,
        "--toolchain",
        f"{prover.kit}/toolchain",
        "--backend",
        "llvm",
        "-o",
        archive_of(crate),
    ]
    os.makedirs(f"{crate.folder}/out", exist_ok=True)
    subprocess.run(words, cwd=crate.folder, stdin=subprocess.DEVNULL, check=True)


if __name__ == "__main__":
    tree = os.path.realpath(sys.argv[1])
    build(Prover(tree), crates_of(tree)[sys.argv[2]])
