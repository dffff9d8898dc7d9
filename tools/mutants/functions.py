"""The functions of a source file: which lines are whose, and what the prover calls each.

Files are in the layout of `rt fmt`, so a block ends at the line of its own indentation that closes
it."""
import re

FUNCTION = re.compile(
    r"^( *)(?:pub(?:\([^)]*\))? +)?(?:const +)?(?:unsafe +)?(?:extern +\"[^\"]*\" +)?fn +(\w+)"
)
BLOCK = re.compile(r"^( *)(?:pub(?:\([^)]*\))? +)?(?:unsafe +)?(mod|impl|trait)\b(.*)$")
CYCLE = re.compile(r"^\s*#\[cycle\((\w+)\)\]")


class Function:
    """A function with a body: its lines, from its comments and attributes to its last line."""

    def __init__(self, file, lines, name, modules, owner, cycle):
        self.file, self.lines, self.name, self.owner, self.cycle = file, lines, name, owner, cycle
        parts = re.sub(r"^src/|\.rt$", "", file).split("/")
        self.modules = (
            [] if parts in (["lib"], ["main"]) else [part for part in parts if part != "mod"]
        )
        self.modules += modules

    def key(self):
        """Returns what no other edit of a round may touch: its cycle of calls, which has one
        proof, or else itself."""
        return self.cycle or (self.file, self.lines.start)

    def holds(self, file, row):
        return self.file == file and row in self.lines

    def is_named(self, path):
        """Returns whether the prover's name can be this function's. A method is named by its type,
        wherever the impl is: walked::Walked::fix, items::RefItemsIntoIterator::into_iter or
        fault::TextFaultFromAllocError::from."""
        _, *parts = path.split("::")
        if parts[-1] != self.name:
            return False
        if self.owner:
            return len(parts) > 1 and bool(
                re.fullmatch(rf"(Mut)?(Ref)?(Mut)?{self.owner}([A-Z]\w*)?", parts[-2])
            )
        return parts[:-1] == self.modules

    def has_inside(self, path):
        """Returns whether the prover's name is a closure's or a loop's of this function:
        list::fn::are_counters::all."""
        parts = path.split("::")[1:]
        is_there = self.owner in parts or parts[: len(self.modules)] == self.modules
        return is_there and "fn" in parts[:-1] and self.name in parts[parts.index("fn") :]

    def has_cycle(self, folder):
        """Returns whether a folder of proofs belongs to the cycle of calls that this function is
        in. The folder has the cycle's name, or else the names of its members:
        proofs/workers/+fn-run_from-join+run_from."""
        at, plus, members = folder.partition("/+")
        if self.cycle:
            return members == self.cycle
        return (
            bool(plus)
            and at == "/".join(["proofs", *self.modules])
            and self.name in members.split("+")
        )

    def owns(self, path):
        return self.is_named(path) or self.has_inside(path)


def functions(file, text):
    lines, found, blocks = text.split("\n"), [], []
    for row, line in enumerate(lines):
        if blocks and line.rstrip() == " " * blocks[-1][0] + "}":
            blocks.pop()
        block = BLOCK.match(line)
        if block and not line.rstrip().endswith((";", "}")):
            blocks.append((len(block[1]), block[2], owner_of(block[3])))
        head = FUNCTION.match(line)
        last = head and last_of(lines, row, head[1])
        if last is None:
            continue
        first, cycle = first_of(lines, row)
        modules = [name for _, kind, name in blocks if kind == "mod"]
        owners = [name for _, kind, name in blocks if kind != "mod"]
        found.append(
            Function(
                file,
                range(first + 1, last + 2),
                head[2],
                modules,
                owners[-1] if owners else "",
                cycle,
            )
        )
    return found


def first_of(lines, row):
    """Returns the row of the first comment or attribute above a function's head, and the cycle of
    calls that they name."""
    cycle = ""
    while row and re.match(r"^\s*(#\[|///)", lines[row - 1]):
        row -= 1
        named = CYCLE.match(lines[row])
        cycle = named[1] if named else cycle
    return row, cycle


def last_of(lines, row, indent):
    """Returns the last row of the function whose head is in a row, or None if it has no body."""
    for at in range(row, len(lines)):
        line = lines[at].rstrip()
        is_outer = line.startswith(indent) and not line.startswith(f"{indent} ")
        if line == f"{indent}}}" or is_outer and line.endswith(("}", ";")):
            return None if line.endswith(";") else at
    return None


def owner_of(head):
    """Returns the type that a block is for: Type, for `impl<T> Trait<X> for a::Type<T> where
    ..`."""
    depth, plain = 0, ""
    for letter in head.replace("->", "  "):
        depth += (letter == "<") - (letter == ">")
        plain += letter if depth == 0 and letter != ">" else " "
    plain = re.split(r"\bwhere\b|[:{]\s*$|\{", plain)[0]
    names = re.findall(r"\w+", re.split(r"\bfor\b", plain)[-1].partition(": ")[0])
    return names[-1] if names else ""
