"""Tries the mutants of crates/*/must-fail/*.edit: the prover must reject each.

    .ci/mutants [--libraries TREE] [--after LOG] [--all] [--write] [--lanes N] [CRATE[/EDIT]..]
    .ci/mutants --dry-run [--all] [CRATE[/EDIT]..]
    .ci/mutants --controls [--libraries TREE] [CRATE..]
    .ci/mutants --summary
    .ci/mutants --self

Mutants of a crate that change different functions are tried together, in one check: rounds.py says
how, and why that rejects no less. Crates run in parallel.

--libraries the tree whose crates/*/out/rlib has the libraries below, as `rt ci` leaves them (this
tree)
--after the output of `rt ci` there, as it runs: a crate is tried once a line reports it proved
--all ignores the record .ci/tried; otherwise only crates whose text it does not have are tried,
and one other in turn
--write      writes the record
--dry-run    lists the crates that would be tried, and why; tries none
--controls   tries the edits of crates/*/controls/, which change no result, and says how many stay
proved
--summary    says at which clauses mutants are rejected, by the record; needs no prover
--self       tests this program on weak mutants, which it must report

The last lines are one for each crate with its CPU time, and 'N rejected, M not'."""
import argparse
import os
import sys
import threading

from .checks import Prover
from .controls import try_controls
from .crates import crates_of
from .edits import edits_of
from .lanes import Lanes, Log, lanes
from .naming import NamingTrial
from .record import Record, in_turn, sums_of
from .rounds import Verdict
from .self_test import self_test
from .summary import summary

TOP = os.path.realpath(f"{os.path.dirname(os.path.realpath(__file__))}/../..")
printing, recording = threading.Lock(), threading.Lock()


def say(text):
    with printing:
        print(f"mutants: {text}", flush=True)


def named_edits(options, sums):
    """Returns the names of the edits that the command line has, by crate; all edits of a crate are
    an empty list."""
    named = {}
    for word in options.crates:
        crate, _, edit = word.partition("/")
        if crate not in sums:
            sys.exit(f"mutants: crates.txt has no crate {crate} with mutants")
        named.setdefault(crate, []).extend([edit.removesuffix(".edit")] if edit else [])
    return named


class Run:
    """A run over the crates whose mutants are to be tried: what the record says of each, and the
    verdicts."""

    def __init__(self, options):
        self.options, self.crates = options, crates_of(TOP)
        self.prover = Prover(os.path.realpath(options.libraries))
        with_edits = [crate for crate in self.crates.values() if edits_of(crate)]
        self.sums = sums_of(self.crates, with_edits, self.prover.line)
        self.record, self.turn = Record(f"{TOP}/.ci/tried"), in_turn(self.sums)
        self.named = named_edits(options, self.sums)
        self.verdicts, self.times = [], {}

    def reason_to_try(self, name):
        """Returns why the mutants of a crate are tried, or None if the record has them and nothing
        asks for a trial."""
        if self.options.all or self.named:
            return "asked for"
        if not self.record.has(name, self.sums[name]):
            known = name in self.record.sums
            return "the record does not have its text" if known else "not in the record"
        return "in turn" if name == self.turn else None

    def plan(self):
        """Returns the crates to try, each with the reason."""
        reasons = {name: self.reason_to_try(name) for name in self.named or self.sums}
        return {name: why for name, why in reasons.items() if why}

    def skip(self, name):
        """Takes the verdict on the mutants of a crate from the record."""
        edits = edits_of(self.crates[name])
        say(f"{name}: {len(edits)} mutants were rejected at this text, by the record")
        # (the record does not depend on comments, in which an edit's text can occur a second time)
        self.verdicts += [Verdict(edit, "BAD EDIT", edit.fault) for edit in edits if edit.fault]

    def try_all(self, names):
        todo = [self.crates[name] for name in names]
        todo.sort(key=lambda crate: -len(edits_of(crate)) * crate.lines())
        log = Log(self.options.after)
        work = Lanes(todo, log, self.options.lanes)

        def try_crate(crate, is_proved):
            if not is_proved:
                say(f"{crate.name}: not proved, so its mutants cannot be tried")
                return
            trial = NamingTrial(crate, self.prover, say, work.jobs, log.paths(crate.name))
            self.keep(crate.name, trial, trial.verdicts(self.named.get(crate.name, ())))

        work.run(try_crate)

    def keep(self, name, trial, found):
        with recording:
            self.verdicts.extend(found)
            self.times[name] = trial.used
            for edit, text in sorted(trial.texts.items()) if self.named.get(name) else ():
                say(f"{name}/{edit}.edit: {text}")
            if self.options.write and not self.named.get(name):
                # (at once, so that nothing is lost if this is stopped)
                is_rejected = all(verdict.is_rejected for verdict in found)
                self.record.write(self.sums, name, is_rejected, trial.texts)


def main(options):
    run = Run(options)
    plan = run.plan()
    if options.dry_run:
        for name, why in plan.items():
            print(f"{name}: {len(edits_of(run.crates[name]))} mutants: {why}")
        return 0
    for name in run.named or run.sums:
        if name not in plan:
            run.skip(name)
    run.try_all(plan)
    bad = [verdict for verdict in run.verdicts if not verdict.is_rejected]
    failed = len(bad) + len(plan) - len(run.times)
    for verdict in bad:
        say(f"must-fail {verdict.edit}: {verdict.word}: {verdict.why}")
    for name, used in run.times.items():
        print(f"mutants of {name}: {used:.0f} s of CPU")
    print(f"{len(run.verdicts) - len(bad)} rejected, {failed} not", flush=True)
    return 1 if failed else 0


def main_of_controls(options):
    crates = crates_of(TOP)
    unknown = [name for name in options.crates if name not in crates]
    if unknown:
        sys.exit(f"mutants: crates.txt has no crate {unknown[0]}")
    prover = Prover(os.path.realpath(options.libraries))
    return try_controls([crates[name] for name in options.crates or crates], prover, say)


def main_of_summary():
    print(summary(crates_of(TOP).values(), Record(f"{TOP}/.ci/tried")))
    return 0


def words():
    parser = argparse.ArgumentParser(
        prog="mutants", description=__doc__, formatter_class=argparse.RawDescriptionHelpFormatter
    )
    parser.add_argument("--libraries", default=TOP)
    parser.add_argument("--after")
    parser.add_argument("--all", action="store_true")
    parser.add_argument("--write", action="store_true")
    parser.add_argument("--dry-run", action="store_true")
    parser.add_argument("--controls", action="store_true")
    parser.add_argument("--summary", action="store_true")
    parser.add_argument("--self", action="store_true", dest="tests_itself")
    parser.add_argument("--lanes", type=int, default=lanes())
    parser.add_argument("crates", nargs="*")
    return parser.parse_args()


if __name__ == "__main__":
    options = words()
    if options.tests_itself:
        sys.exit(self_test(TOP))
    if options.controls:
        sys.exit(main_of_controls(options))
    sys.exit(main_of_summary() if options.summary else main(options))
