"""The verdict on each mutant of a crate.

Mutants of different functions are tried together, in one check. This rejects no less: a proof sees
only the contracts of the functions that it calls, and no mutant changes a contract. A mutant is
rejected if its own function has a goal of its own that is not proved, at a line of the function or
in its folder of proofs. As a control, no function without a mutant may have such a goal. A mutant
that this does not decide is tried alone, as `rt must-fail` does."""
import shutil
import tempfile

from .edits import edits_of, functions_of


class Verdict:
    def __init__(self, edit, word, why):
        self.edit, self.word, self.why = edit, word, why
        self.is_rejected = word == "rejected"


class Trial:
    """The trial of one crate's mutants. It keeps the prover's work from check to check."""

    def __init__(self, crate, prover, say, jobs, paths=()):
        """`paths` has the prover's names of the crate's functions, as far as they are known."""
        self.crate, self.prover, self.say, self.jobs, self.paths = crate, prover, say, jobs, paths
        self.functions, self.edits = functions_of(crate), edits_of(crate)
        self.used, self.wall, self.rejected = 0, 0, {}

    def verdicts(self, names=()):
        """Returns a verdict for each mutant, or for those with these names."""
        self.edits = [edit for edit in self.edits if not names or edit.name in names]
        with tempfile.TemporaryDirectory(prefix="mutants-") as self.kept:
            self.in_rounds()
            left = [edit for edit in self.edits if edit not in self.rejected]
            # Kept work counts only for a rejection, and only if the crate itself is proved over
            # it.
            serves = not left or self.check({}, self.kept).is_proved
            if not serves:
                self.say(
                    f"{self.crate.name}: not proved over its kept work: each mutant that is tried "
                    "alone is checked from nothing"
                )
            made = {}
            for edit in left:
                verdict = self.over_a_copy(edit) if serves else None
                made[edit] = verdict if verdict and verdict.is_rejected else self.alone(edit, None)
                self.say(f"{edit}: alone: {made[edit].word}")
        decided = {
            edit: Verdict(edit, "rejected", f"round {number}")
            for edit, number in self.rejected.items()
        }
        self.say(
            f"{self.crate.name}: {len(self.edits)} mutants, {len(decided)} decided in rounds, "
            f"{self.wall:.0f} s, {self.used:.0f} s of CPU"
        )
        return [{**decided, **made}[edit] for edit in self.edits]

    def check(self, texts, kept, only=()):
        report = self.prover.check(self.crate, texts, self.jobs(), kept, only)
        self.used, self.wall = self.used + report.used, self.wall + report.wall
        return report

    def in_rounds(self):
        waiting, number = [edit for edit in self.edits if edit.touched], 0
        while waiting:
            number += 1
            taken, waiting, texts = self.next_round(waiting)
            report = self.check(texts, self.kept, self.named(taken))
            self.paths = self.paths or report.paths
            if not report.is_judged or report.unreadable(texts) or report.is_stale:
                # The compiler names what it rejects: these mutants are tried alone, and the others
                # once more.
                places = report.rejected_by_compiler()
                guilty = [
                    edit
                    for edit in taken
                    if any(each.holds(*place) for each in edit.touched for place in places)
                ] or taken
                waiting = [edit for edit in taken if edit not in guilty] + waiting
                self.say(
                    f"{self.crate.name}: round {number} did not reach the prover; tried alone: "
                    f"{names_of(guilty)}: {report.lines[0][:160]}"
                )
                continue
            strays = self.strays(taken, report)
            if strays:
                self.say(
                    f"{self.crate.name}: round {number}: functions without a mutant have goals, "
                    f"so all are tried alone: {' '.join(strays)}"
                )
                continue
            decided = [edit for edit in taken if self.is_rejected(edit, report)]
            self.rejected.update({edit: number for edit in decided})
            others = [edit for edit in taken if edit not in decided]
            self.say(
                f"{self.crate.name}: round {number}: {len(decided)} of {len(taken)} rejected, "
                f"{report.wall:.0f} s, {report.used:.0f} s of CPU"
                + (f"; not decided: {names_of(others)}" if others else "")
            )

    def named(self, taken):
        """Returns the prover's names of the functions that these mutants change, if all are known:
        only they and what they call are checked then."""
        touched = [function for edit in taken for function in edit.touched]
        found = [[path for path in self.paths if each.is_named(path)] for each in touched]
        return [path for paths in found for path in paths] if all(found) else []

    def next_round(self, waiting):
        """Takes as many mutants as change different functions. Returns them, those left, and the
        texts with them made."""
        taken, left, keys, texts = [], [], set(), {}
        for edit in waiting:
            mine = {function.key() for function in edit.touched}
            made = None if keys & mine else edit.made_in(texts)
            if made is None:
                left.append(edit)
            else:
                taken, keys, texts = [*taken, edit], keys | mine, made
        return taken, left, texts

    def strays(self, taken, report):
        """Returns the functions with goals of their own that no mutant of the round changes: the
        control."""
        keys = {function.key() for edit in taken for function in edit.touched}
        touched = [function for function in self.functions if function.key() in keys]
        return [
            path for path in report.own if not any(function.owns(path) for function in touched)
        ]

    def is_rejected(self, edit, report):
        """Returns whether a function that the mutant changes has a goal of its own that is not
        proved."""
        return any(self.has_goal(function, report) for function in edit.touched)

    def has_goal(self, function, report):
        same = [other for other in self.functions if other.key() == function.key()]
        for path, goals in report.own.items():
            if not any(other.owns(path) for other in same):
                continue
            if any(other.holds(*goal) for goal in goals for other in same):
                return True
            # (two functions with one name in a module, as in two impls of From, differ only by
            # their lines)
            is_one = sum(other.is_named(path) for other in self.functions) == 1
            if is_one and "proofs/" + "/".join(path.split("::")[1:]) in report.proof_folders:
                return True
        return any(function.has_cycle(folder) for folder in report.proof_folders)

    def over_a_copy(self, edit):
        """Returns the verdict on one mutant over a copy of the kept work, which the next check
        needs unchanged."""
        with tempfile.TemporaryDirectory(prefix="mutants-") as room:
            return self.alone(edit, shutil.copytree(self.kept, f"{room}/kept"))

    def alone(self, edit, kept):
        """Returns the verdict on one mutant by a check of its own."""
        if edit.fault:
            return Verdict(edit, "BAD EDIT", edit.fault)
        texts = edit.made_in({})
        report = self.check(texts, kept)
        unreadable = report.unreadable(texts)
        if unreadable:
            return Verdict(
                edit,
                "BAD EDIT",
                "the prover cannot read the edited text, so no contract was tried: "
                f"{unreadable[:200]}",
            )
        if report.is_stale:
            return Verdict(edit, "BAD EDIT", "the kept work of a library could not be used")
        if report.is_judged:
            return Verdict(edit, "rejected", "alone")
        if report.is_proved:
            return Verdict(edit, "NOT REJECTED", "the crate is still proved with this mutant")
        return Verdict(
            edit, "BAD EDIT", f"it did not reach the prover: {' / '.join(report.lines[:4])[:400]}"
        )


def names_of(edits):
    return " ".join(edit.name for edit in edits)
