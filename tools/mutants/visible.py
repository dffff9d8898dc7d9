"""What a crate sees of the crates below it: the definitions, types and contracts whose names it
uses.

A proof sees the contracts of the functions that it calls, not their bodies, and the definitions
that these contracts use. So whether a mutant breaks its contract depends on no body and no lemma
of another crate. An item is visible if its name is a word of the crate, or of another visible
item. A name that two items share makes both visible. An alias makes visible what it is an alias
of. The contract of a method counts only if its type is visible too, and that of any function only
if its crate exports the function or its type."""
import re

from .crates import read, without_comments
from .functions import FUNCTION, owner_of

WORD = re.compile(r"[\w'-]*\w[\w'-]*")
# What may stand before a name at the start of a definition.
KEYWORDS = {"pub", "abbrev", "record", "data", "opaque", "rec", "mutual"}
TYPE = re.compile(
    r"^(pub(?:\([^)]*\))? +)?(?:unsafe +)?(struct|enum|trait|const|static|type|mod) +(?:mut "
    r"+)?(\w+)"
)
IMPL = re.compile(r"^(?:unsafe +)?impl\b(.*)$")
# A line that brings names in: from where, which, and the alias of a single one.
IMPORT = re.compile(
    r"^\s*(?:pub(?:\([^)]*\))? +)?(?:ghost +)?use +([^\s{;]+?)(?:[.:]*\{([^}]*)\})?(?: as "
    r"([^;]*))?;?$"
)
LONG_IMPORT = re.compile(
    r"^\s*(?:pub(?:\([^)]*\))? +)?(?:ghost +)?use +[^;{]*\{[^}]*\n[^}]*\};?$", re.M
)
# A block of methods of a trait, and the trait's path.
OF_TRAIT = re.compile(r"^(?:unsafe +)?impl\b(?:<.*?> +| +)([\w:]+)(?:<.*?>)? for ")
MODULE = re.compile(r"^(?:pub(?:\([^)]*\))? +)?mod +\w+;?$")


class Item:
    """A definition, a type, a block or the contract of a function: its name, its text, the words
    of that, and from where those come."""

    def __init__(self, place, name, text, origins):
        self.place, self.name, self.text = place, name, text
        self.words = words(text)
        # (the first line of a function's item is the type that it belongs to)
        owner, _, head = text.partition("\n")
        self.names = words(f"{name} {owner}" if FUNCTION.match(head) else name)
        self.origins = [(word, origins[word]) for word in sorted(self.words & origins.keys())]
        # (the text has an alias, and the crate below has the name at the end of its origin)
        self.words |= {WORD.findall(origin)[-1] for _, known in self.origins for origin in known}


def words(text):
    return set(WORD.findall(text))


def items_of(crate):
    """Returns what other crates can see of a crate, in order."""
    found, exports = [], exports_of(crate)
    for path in crate.files("src", "specs"):
        text = without_comments(path, read(f"{crate.folder}/{path}").encode()).decode()
        lines = LONG_IMPORT.sub(
            lambda found_import: " ".join(found_import[0].split()), text
        ).split("\n")
        origins, left = origins_of(lines), [
            line for line in lines if not IMPORT.match(line) and not MODULE.match(line)
        ]
        made = items_of_source(left) if path.endswith(".rt") else items_of_definitions(left)
        found += [
            Item((crate.name, path), name, text, origins)
            for name, text in made
            if is_exported(path, name, text, exports)
        ]
    return found


def exports_of(crate):
    """Returns the names that a crate exports, and its source files of which it exports
    everything."""
    text = read(f"{crate.folder}/{crate.root()}")
    used = re.findall(r"^pub use ([^;]*);", text, re.M)
    return words(" ".join(used)), {
        f"src/{module}.rt" for module in re.findall(r"^pub mod (\w+);", text, re.M)
    } | {crate.root()}


def is_exported(path, name, text, exports):
    """Returns whether other crates can call a function, given the line of its owner and its
    contract. All other items are exported."""
    owner, _, head = text.partition("\n")
    names, files = exports
    return (
        not FUNCTION.match(head) or path in files or bool({owner or name, *owner.split()} & names)
    )


def origins_of(lines):
    """Returns the paths from which a file has each name that it brings in. An alias is such a
    name."""
    found = {}
    for line in filter(IMPORT.match, lines):
        place, names, alias = IMPORT.match(line).groups()
        place = place.replace("::", ".")
        if names is None:
            place, _, name = place.rpartition(".")
            names = f"{name} as {alias}" if alias else name
        for each in names.split(","):
            name, _, alias = each.strip().partition(" as ")
            for known_as in WORD.findall(alias or name):
                found.setdefault(known_as, []).append(f"{place}.{name}")
    return found


def items_of_definitions(lines):
    """Yields the blocks between blank lines, each under every name that starts a line of it."""
    for block in re.split(r"\n\s*\n", "\n".join(lines)):
        starts = [line.split() for line in block.split("\n") if line[:1].strip()]
        names = {next((word for word in start if word not in KEYWORDS), "") for start in starts}
        for name in sorted(name.rstrip(":") for name in names):
            yield name, block.strip()


def items_of_source(lines):
    """Yields the contract of each function, and what else each block has, under the name of its
    type. Private types and fields of a struct are left out."""
    owner, kind, rest, row, own, marks = "", "", {}, 0, [], []
    while row < len(lines):
        line = lines[row]
        head = FUNCTION.match(line)
        if head:
            last, after = contract_of(lines, row, head[1])
            own.append((head[2], "\n".join([owner, *lines[row:last]])))
            row, marks = after, []
            continue
        row += 1
        if line.lstrip().startswith("#["):
            marks.append(line)
            continue
        if line[:1].strip() and not line.startswith(("}", ")", "where")):
            block, named = IMPL.match(line), TYPE.match(line)
            owner = owner_of(block[1]) if block else named[3] if named else ""
            kind = "impl" if block else named[2] if named and named[1] == "pub " else "private"
        is_hidden = (
            kind == "private"
            or kind == "struct"
            and line.startswith("    ")
            and not line.startswith("    pub ")
        )
        if line.strip() and not is_hidden:
            rest.setdefault(owner, []).extend([*marks, line])
        marks = []
    yield from own
    for name, text in rest.items():
        # (the head of a block of functions says nothing)
        if any(not IMPL.match(line) and line.strip() != "}" for line in text):
            yield name, "\n".join(text)


def contract_of(lines, row, indent):
    """Returns the row after the head and the clauses of the function whose head is in a row, and
    the row after its body."""
    for at in range(row, len(lines)):
        line = lines[at].rstrip()
        if line == f"{indent}{{":
            return (
                at,
                next(
                    last for last in range(at, len(lines)) if lines[last].rstrip() == f"{indent}}}"
                )
                + 1,
            )
        if (
            line.endswith(";")
            or line.endswith("}")
            and line.startswith(f"{indent}fn ")
            and "{" in line
        ):
            return at + 1, at + 1
        if line.endswith("{") and line.startswith(indent) and not line.startswith(f"{indent} "):
            return (
                at + 1,
                next(
                    last
                    for last in range(at + 1, len(lines))
                    if lines[last].rstrip() == f"{indent}}}"
                )
                + 1,
            )
    return len(lines), len(lines)


def visible(crate, items):
    """Returns the text of the items of the crates below that a crate sees. `items` has the items
    of each crate by its name."""
    known, found = set(), []
    for path in crate.files("src", "specs", "proofs", "must-fail"):
        known |= words(without_comments(path, read(f"{crate.folder}/{path}").encode()).decode())
    left = [item for lower in crate.below for item in items[lower.name]]
    while True:
        seen = [item for item in left if item.names <= known]
        if not seen:
            return sorted((*item.place, item.name, item.text, item.origins) for item in found)
        found += seen
        left = [item for item in left if item not in seen]
        for item in seen:
            known |= item.words


def is_public(crate, function):
    """Returns whether other crates can call a function: its head says `pub`, or it is a method of
    a trait that is no private one, and its crate exports it or its type."""
    names, files = exports_of(crate)
    if function.file not in files and (function.owner or function.name) not in names:
        return False
    lines = read(f"{crate.folder}/{function.file}").split("\n")
    head = next(lines[row - 1] for row in function.lines if FUNCTION.match(lines[row - 1]))
    above = reversed(lines[: function.lines.start - 1])
    of_trait = OF_TRAIT.match(next(filter(IMPL.match, above), "")) if head[:1] == " " else None
    is_private = of_trait and of_trait[1].rpartition("::")[2] in private_traits(crate, names)
    return bool(re.match(r"^ *pub ", head) or of_trait and not is_private)


def private_traits(crate, names):
    """Returns the traits of a crate that it does not export."""
    sources = "\n".join(read(f"{crate.folder}/{path}") for path in crate.files("src"))
    return set(re.findall(r"^(?:pub(?:\([^)]*\))? +)?trait +(\w+)", sources, re.M)) - names
