"""Which clauses fail in a check, as the prover names them.

The prover names each goal that it does not prove: returns-then-is_full-clause-ok is the clause
`ensures ok` at one return, put-requires is a clause of the callee `put`, and overflow_add-total is
a check of arithmetic. It names a goal in a note at its line of the source, or in an error in the
folder of proofs of its function."""
import re

# The forms of the names of goals, each with its clause.
FORMS = [
    (r"overflow_\w+-.*", "overflow"),
    (r"nonzero_\w+-.*", "zero divisor"),
    (r"(?:\w+_)?bounds-.*", "bounds"),
    (r"returns(?:-.*?)?-clause-([\w']+)", "ensures {}"),
    (r"returns(?:-.*)?", "ensures"),
    (r"invariant_of-.*", "type invariant"),
    (r"(?:prove-)?unreachable-requires(?:-.*)?", "unreachable"),
    (r"(\w+?)(?:-.*)?-requires(?:-.*)?", "requires of {}"),
    (r"invariant-.*|.*-(?:init|preserved)(?:-.*)?", "loop invariant"),
    (r"measure-.*|.*-smaller(?:-.*)?", "measure"),
]
ARITHMETIC = ("overflow", "zero divisor", "bounds")
UNREADABLE = "does not read"
# What a clause ends with if the prover found values at which its goal is false.
FALSE = " (false)"

NOTE = re.compile(r"^note: (src/\S+?):(\d+):\d+: it is not proved .*\(`([^`]+)`\)(.*)")
ERROR = re.compile(r"^(?:\./)?(proofs/\S+?)/[^/:]+:\d+:\d+: error: (?:`([^`]*)`: )?(.*)")
UNANSWERED = re.compile(
    r"^fn \S+: no proof: expected answers in \./(proofs/\S+)/Answers\.antt; `search` did not "
    r"prove ([^;]*)"
)
AT_VALUES = "allow values at which this goal is false"
# The folder of a cycle's proofs.
CYCLE = re.compile(r"\bproofs/\S*/\+[\w+-]+")
# An error in a proof that names what the body no longer has.
NAMES_ONLY = re.compile(r"has no field|is not in scope|has no `")
# An error that follows from another one.
FOLLOWS = re.compile(r"was not admitted")


def clause_of(goal):
    """Returns the clause that a goal is for, or that its proof cannot be read."""
    if not goal:
        return UNREADABLE
    for form, clause in FORMS:
        found = re.fullmatch(form, goal)
        if found:
            return clause.format(*found.groups())
    return f"lemma {goal}"


class Failing:
    """The goals of a check that are not proved: those that a note names, by lines of the source,
    and those that an error or a missing answer names, by folders of proofs."""

    def __init__(self, report):
        self.notes, self.folders, self.cycles = [], [], set()
        for line in report.lines:
            note, error, left = NOTE.match(line), ERROR.match(line), UNANSWERED.match(line)
            self.cycles.update(CYCLE.findall(line))
            if note:
                goal = note[3], AT_VALUES in note[4]
                self.notes.append((note[1], int(note[2]), goal))
            elif error and not FOLLOWS.search(error[3]):
                is_gone = not error[2] or NAMES_ONLY.search(re.sub(r"`[^`]*`", "``", error[3]))
                self.folders.append((error[1], ("" if is_gone else error[2], False)))
            elif left:
                goals = re.findall(r"`([^`]+)`", left[2])
                self.folders += [(left[1], (goal, False)) for goal in goals]

    def of(self, functions):
        """Returns the clauses that fail, by the function of these in which they do."""
        found = {}
        for function in functions:
            goals = [goal for file, row, goal in self.notes if function.holds(file, row)]
            goals += [
                goal for folder, goal in self.folders if is_proof_of(function, folder, *goal)
            ]
            # (in a cycle of calls, the name of a goal begins with that of its function)
            is_in_cycle = any(function.has_cycle(folder) for folder in self.cycles)
            start = f"{function.name}-" if is_in_cycle else ""
            named = [(clause_of(goal.removeprefix(start)), is_false) for goal, is_false in goals]
            are_false = {clause for clause, is_false in named if is_false}
            if named:
                found[function] = sorted(
                    {clause + FALSE if clause in are_false else clause for clause, _ in named}
                )
        return found


def is_proof_of(function, folder, goal, _):
    """Returns whether a goal in a folder of proofs is one of the function."""
    if function.has_cycle(folder):
        return not goal or goal.startswith(f"{function.name}-")
    return function.owns(folder.replace("/", "::"))
