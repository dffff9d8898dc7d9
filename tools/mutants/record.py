"""The record .ci/tried: the crates whose mutants were all rejected, and at which text.

The line of a crate has a checksum over the logic of the kit, the modules that decide on a mutant,
the crate with its mutants, and what the crate sees of those below it: visible.py says what that
is. Lines that are comments only are left out of crates. Below it, each mutant has a line with the
clauses that failed. A crate without such lines was tried before the record had them."""
import hashlib
import os

from .crates import PARTS, read
from .visible import items_of, visible

HEAD = (
    "# Each crate whose mutants were all rejected, and the checksum of the text at which they "
    "were. .ci/mutants --write writes it.\n"
    "# Below a crate: each mutant, the function that it changes, and the clauses that fail.\n"
)
# The modules that decide whether a mutant is rejected.
DECIDES = ("crates", "functions", "edits", "checks", "rounds")


def program():
    """Returns the text of the modules that decide."""
    folder = os.path.dirname(os.path.realpath(__file__))
    return [read(f"{folder}/{name}.py") for name in DECIDES]


def logic_of(kit):
    """Returns the logic in the line of a kit, `NAME logic SUM`, or the whole line if it has
    another form. A mutant that was rejected with one kit counts as rejected with each kit of the
    same logic: it is assumed, not tried, that none of them proves it."""
    return kit.partition(" logic ")[2] or kit


def sums_of(crates, named, kit):
    """Returns the checksums of the crates in `named` by their names, for the logic of this kit."""
    items, decides, logic = (
        {crate.name: items_of(crate) for crate in crates.values()},
        program(),
        logic_of(kit),
    )
    parts = lambda crate: (
        crate.sum(*PARTS, "must-fail"),
        [(low.name, low.kind, low.uses) for low in crate.below],
        visible(crate, items),
    )
    return {
        crate.name: hashlib.sha256(repr((logic, decides, parts(crate))).encode()).hexdigest()
        for crate in named
    }


class Record:
    """The checksums of crates, and the texts on their mutants by the names of these."""

    def __init__(self, file):
        self.file, self.sums, self.named = file, {}, {}
        lines = read(file).splitlines() if os.path.isfile(file) else []
        name = ""
        for line in lines:
            if line.startswith(" "):
                edit, _, text = line.strip().partition(": ")
                self.named.setdefault(name, {})[edit] = text
            elif line and line[0] != "#":
                name, made = line.split()
                self.sums[name] = made

    def has(self, name, made):
        return self.sums.get(name) == made

    def write(self, sums, name, is_rejected, named=()):
        """Writes what is known of a crate now, and the lines that are still of the present text.
        `named` has the texts on the mutants of the crate."""
        known = {**self.sums, name: sums[name] if is_rejected else ""}
        self.sums = {crate: made for crate, made in sums.items() if known.get(crate) == made}
        self.named[name] = dict(named)
        with open(self.file, "w", encoding="utf-8") as written:
            written.write(HEAD + "".join(map(self.lines_of, sorted(self.sums))))

    def lines_of(self, name):
        texts = sorted(self.named.get(name, {}).items())
        return f"{name} {self.sums[name]}\n" + "".join(
            f"  {edit}: {text}\n" for edit, text in texts
        )


def in_turn(sums):
    """Returns one crate, another with each change: it is tried although the record has it."""
    names = sorted(sums)
    return names[
        int(hashlib.sha256(repr(sorted(sums.items())).encode()).hexdigest(), 16) % len(names)
    ]
