"""The crates of a tree, as its crates.txt lists them."""
import hashlib
import os
import re

# The folders of a crate that a check reads.
PARTS = ("src", "specs", "proofs")
# What starts a comment, by the suffix of a file.
COMMENTS = {".rt": b"//", ".antt": b"--"}


def read(file):
    with open(file, encoding="utf-8") as opened:
        return opened.read()


def without_comments(path, text):
    """Returns the bytes of a file without the lines that are comments only, since no proof depends
    on them."""
    mark = COMMENTS.get(os.path.splitext(path)[1])
    return b"\n".join(
        line for line in text.split(b"\n") if not mark or not line.lstrip().startswith(mark)
    )


class Crate:
    def __init__(self, tree, name, kind, uses):
        self.name, self.kind, self.uses = name, kind, uses
        self.folder = f"{tree}/crates/{name}"
        self.below = []

    def root(self):
        return "src/main.rt" if os.path.isfile(f"{self.folder}/src/main.rt") else "src/lib.rt"

    def files(self, *parts):
        """Yields the crate's files in these of its folders, each as a path from the crate's
        own."""
        for part in parts:
            for at, folders, names in os.walk(f"{self.folder}/{part}"):
                folders.sort()
                for name in sorted(names):
                    yield os.path.relpath(f"{at}/{name}", self.folder)

    def lines(self):
        return sum(read(f"{self.folder}/{path}").count("\n") for path in self.files(*PARTS))

    def sum(self, *parts):
        """Returns a checksum over the crate's line in crates.txt and its files in these folders,
        without comments."""
        made = hashlib.sha256(repr((self.name, self.kind, self.uses)).encode())
        for path in self.files(*parts):
            with open(f"{self.folder}/{path}", "rb") as opened:
                made.update(repr((path, without_comments(path, opened.read()))).encode())
        return made.hexdigest()


def crates_of(tree):
    """Returns the crates by name, in the file's order, each with those below it, lowest first."""
    found = {}
    for line in read(f"{tree}/crates.txt").splitlines():
        head, _, uses = line.partition("#")[0].partition(":")
        if head.strip():
            name, *more = head.split()
            found[name] = Crate(
                tree, name, "staticlib" if "staticlib" in more else "", re.findall(r"[\w-]+", uses)
            )

    def below(crate):
        lower = []
        for used in [found[name] for name in crate.uses if name in found]:
            lower += [each for each in [*below(used), used] if each not in lower]
        return lower

    for crate in found.values():
        crate.below = below(crate)
    return found
