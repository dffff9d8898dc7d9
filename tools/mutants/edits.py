"""The mutants of a crate: crates/NAME/must-fail/*.edit, as `rt must-fail` reads them."""
import os
import re

from .crates import PARTS, read
from .functions import functions


class Edit:
    """Lines 'file: PATH', and then pairs 'old: TEXT', 'new: TEXT', where each old text occurs once
    in the file."""

    def __init__(self, crate, path):
        self.crate, self.name = crate, os.path.basename(path)[: -len(".edit")]
        self.pairs, self.fault = [], None
        file = old = None
        for line in read(path).split("\n"):
            word, _, rest = line.partition(":")
            text = rest[1:] if rest.startswith(" ") else rest
            if word == "file":
                file = text.strip()
            elif word == "old":
                old = text
            elif word == "new":
                if not file or not old:
                    self.fault = "a 'new:' line comes before any 'file:' or 'old:' line"
                    return
                self.pairs.append((file, old, text))
                old = None
        paths = [file for file, _, _ in self.pairs]
        if not paths or any(
            os.path.normpath(path) != path or path.split("/")[0] not in PARTS for path in paths
        ):
            self.fault = (
                "a 'file:' line names no file below src/, specs/ or proofs/, or there is no pair"
            )
        elif self.made_in({}) is None:
            self.fault = "an 'old:' text does not occur in its file exactly once"
        self.touched = None if self.fault else self.functions_touched()

    def __str__(self):
        return f"{self.crate.name}/{self.name}.edit"

    def made_in(self, texts):
        """Returns the texts, by path, with this edit made too, or None if it cannot be made."""
        made = dict(texts)
        for file, old, new in self.pairs:
            if file not in made:
                try:
                    made[file] = read(f"{self.crate.folder}/{file}")
                except (OSError, UnicodeDecodeError):
                    return None
            if made[file].count(old) != 1:
                return None
            made[file] = made[file].replace(old, new)
        return made

    def functions_touched(self):
        """Returns the functions whose text it changes, or None if it changes anything else, or the
        number of lines."""
        found = []
        for file, text in self.made_in({}).items():
            whole = read(f"{self.crate.folder}/{file}")
            before, after = whole.split("\n"), text.split("\n")
            if len(before) != len(after) or not file.startswith("src/"):
                return None
            known = functions(file, whole)
            for row, (was, is_now) in enumerate(zip(before, after), 1):
                around = [function for function in known if function.holds(file, row)]
                if was != is_now and not around:
                    return None
                if was != is_now:
                    inner = max(around, key=lambda function: function.lines.start)
                    found += [inner] if inner not in found else []
        return found or None


def edits_of(crate):
    folder = f"{crate.folder}/must-fail"
    names = sorted(os.listdir(folder)) if os.path.isdir(folder) else []
    return [Edit(crate, f"{folder}/{name}") for name in names if name.endswith(".edit")]


def functions_of(crate):
    paths = [path for path in crate.files("src") if path.endswith(".rt")]
    return [each for path in paths for each in functions(path, read(f"{crate.folder}/{path}"))]
