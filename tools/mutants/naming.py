"""A trial that also says which clauses fail where a mutant is rejected.

What it says decides nothing, so it is in modules of its own: the record of mutants has a checksum
over the modules that decide."""
from .clauses import Failing
from .rounds import Trial
from .visible import is_public

NOT_SAID = "not said"
# How many functions are named if a mutant changes what many see.
MOST = 3


class NamingTrial(Trial):
    """A trial of mutants. `texts` has the text for each that is rejected, by its name."""

    def __init__(self, crate, *words):
        super().__init__(crate, *words)
        self.texts, self.report = {}, None

    def check(self, texts, kept, only=()):
        self.report = super().check(texts, kept, only)
        return self.report

    def is_rejected(self, edit, report):
        is_rejected = super().is_rejected(edit, report)
        if is_rejected:
            self.texts[edit.name] = self.text_for(edit, report)
        return is_rejected

    def alone(self, edit, kept):
        verdict = super().alone(edit, kept)
        if verdict.is_rejected:
            self.texts[edit.name] = self.text_for(edit, self.report)
        return verdict

    def text_for(self, edit, report):
        """Returns the functions in which clauses fail, each with these clauses. They are the
        functions that the mutant changes and those of their cycles of calls. If it changes no
        function, they are all."""
        keys = [function.key() for function in edit.touched or self.functions]
        known = [function for function in self.functions if function.key() in keys]
        found = Failing(report).of(known)
        if not found:
            found = {function: [NOT_SAID] for function in edit.touched or []}
        named = [self.line_of(*each) for each in found.items()]
        return "; ".join(sorted(named, key=is_no_public_one)[:MOST]) or NOT_SAID

    def line_of(self, function, clauses):
        word = "pub " if is_public(self.crate, function) else ""
        path = "::".join([*function.modules, *[function.owner][: bool(function.owner)]])
        name = f"{path}::{function.name}".removeprefix("::")
        return f"{word}{name}: {', '.join(clauses)}"


def is_no_public_one(line):
    return not line.startswith("pub ")
