"""Controls: edits that change no result, so that a function with one still meets its contract.

They are in crates/NAME/controls/*.edit, in the form of mutants. A control that the prover refuses
shows how often a refusal is about the proof, and not about the contract."""
import os
import shutil

from .edits import Edit
from .naming import NamingTrial

WORDS = {"rejected": "refused", "NOT REJECTED": "stays proved"}


def controls_of(crate):
    folder = f"{crate.folder}/controls"
    names = sorted(os.listdir(folder)) if os.path.isdir(folder) else []
    return [Edit(crate, f"{folder}/{name}") for name in names if name.endswith(".edit")]


class ControlTrial(NamingTrial):
    """A trial of a crate's controls. Those whose functions a round reports as proved are not tried
    again."""

    def __init__(self, crate, *words):
        super().__init__(crate, *words)
        self.edits, self.proved, self.is_round = controls_of(crate), set(), False

    def check(self, texts, kept, only=()):
        report = super().check(texts, kept, only)
        # (a round in which all stay proved is one with a verdict too)
        report.is_judged = report.is_judged or self.is_round and report.is_proved
        return report

    def is_rejected(self, edit, report):
        is_rejected = super().is_rejected(edit, report)
        lines = [line for line in report.lines if line.startswith("fn ")]
        words = [
            {
                line.partition(": ")[2]
                for line in lines
                if function.owns(line[3:].partition(": ")[0])
            }
            for function in edit.touched
        ]
        if not is_rejected and all(each == {"proved"} for each in words):
            self.proved.add(edit)
        return is_rejected

    def in_rounds(self):
        # (a trial of controls decides nothing, so it begins with what `rt check` kept)
        kept = f"{self.prover.libraries}/crates/{self.crate.name}/out/incremental"
        if os.path.isdir(kept):
            shutil.copytree(kept, self.kept, dirs_exist_ok=True)
        self.is_round = True
        super().in_rounds()
        self.is_round = False
        self.edits = [edit for edit in self.edits if edit not in self.proved]

    def results(self):
        """Returns what became of each control, by its name: `stays proved`, `refused` or `BAD
        EDIT`, and the clauses that fail or the reason."""
        left = self.verdicts()
        found = {str(edit): ("stays proved", "") for edit in self.proved}
        for verdict in left:
            why = self.texts.get(verdict.edit.name, "")
            word = WORDS.get(verdict.word, verdict.word)
            found[str(verdict.edit)] = word, why if verdict.word in WORDS else verdict.why
        return found


def try_controls(crates, prover, say):
    """Tries the controls of these crates, and returns the status: 1 if one could not be tried."""
    found = {}
    of_controls = {"mutant": "control", "rejected": "refused", "decided": "refused"}

    def tell(text):
        for word, other in of_controls.items():
            text = text.replace(word, other)
        # (the sum of a trial leaves out what stays proved)
        if " in rounds, " not in text:
            say(text)

    for crate in crates:
        if controls_of(crate):
            found.update(ControlTrial(crate, prover, tell, lambda: 1).results())
    for edit, (word, why) in sorted(found.items()):
        print(f"control {edit}: {word}{': ' if why else ''}{why}", flush=True)
    words = [word for word, _ in found.values()]
    stay, bad = words.count("stays proved"), words.count("BAD EDIT")
    print(f"{stay} of {len(words) - bad} controls stay proved, {bad} could not be tried")
    return 1 if bad else 0
