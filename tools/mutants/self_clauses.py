"""Tests of what the record says of mutants, and of controls."""
import os
import tempfile
from types import SimpleNamespace

from .clauses import Failing, clause_of
from .functions import functions
from .record import Record
from .summary import kind_of

# Names of goals, and the clause that each is for.
GOALS = {
    "returns": "ensures",
    "returns-clause-ok": "ensures ok",
    "returns-in_err-add-clause-err": "ensures err",
    "returns-then-is_full": "ensures",
    "put-requires-clause-kind": "requires of put",
    "chain_mut-requires": "requires of chain_mut",
    "unreachable-requires": "unreachable",
    "loop-i-preserved": "loop invariant",
    "loop-taken-preserved-in_default": "loop invariant",
    "loop-place-smaller": "measure",
    "invariant_of-self-lent": "type invariant",
    "overflow_sub-result": "overflow",
    "nonzero_rem-size": "zero divisor",
    "bounds-items-at": "bounds",
    "slice_bounds-part-end": "bounds",
    "is_predecessor": "lemma is_predecessor",
    "": "does not read",
}

# A report: notes, answers that are missing or fail, a proof that names what is gone, a cycle.
REPORT = """note: src/keys.rt:3:1: it is not proved that it ensures this (`returns`); the facts \
known there allow values at which this goal is false
fn split_key::keys::one: no proof: expected answers in ./proofs/keys/one/Answers.antt; `search` \
did not prove `returns`, `overflow_add-result`; it calls `keys::two`, which is not proved
./proofs/keys/two/Answers.antt:5:9: error: `returns-clause-top`: the two types first differ
./proofs/keys/two/Answers.antt:9:9: error: `lent`: `returns-clause-top` was not admitted
fn split_key::keys::two: not proved
./proofs/keys/three/Answers.antt:6:13: error: `returns`: `c` has no field `sum`
fn split_key::keys::three: not proved
note: src/keys.rt:10:5: it is not proved that what `put` requires holds (`four-put-requires`)
fn split_key::keys::four: no proof: expected answers in ./proofs/keys/+five+four/Answers.antt; \
`search` did not prove `four-put-requires`, `five-returns-clause-ok`"""
NAMES = ("one", "two", "three", "four", "five")
FUNCTIONS = "".join(f"fn {name}() {{\n    1\n}}\n" for name in NAMES)
FAILING = {
    "one": ["ensures (false)", "overflow"],
    "two": ["ensures top"],
    "three": ["does not read"],
    "four": ["requires of put"],
    "five": ["ensures ok"],
}

# Texts of the record, and the kind of each.
KINDS = {
    "pub keys::one: ensures, overflow": "public ensures",
    "keys::two: measure; pub keys::one: ensures ok": "public ensures",
    "keys::two: ensures ok": "inner clause",
    "pub keys::one: loop invariant, overflow": "inner clause",
    "pub keys::one: bounds (false), overflow": "arithmetic",
    "pub keys::one: does not read": "does not read",
    "pub keys::one: not said": "not said",
    "not said": "not said",
}

# Records: with lines for mutants, and as they were before.
NEW = {"one_key": {"an_edit": "pub key: ensures", "b_edit": "not said"}, "two_keys": {}}
OLD = "# Each crate.\none_key 0123\ntwo_keys 4567\n"

# Edits of split_key as controls, and what becomes of each.
CONTROLS = {
    "a_mask_by_name": (
        "src/buckets.rt",
        "hash & (size - 1)",
        "{ let mask = size - 1; hash & mask }",
        "stays proved\n",
    ),
    "a_sum_turned_round": (
        "src/keys.rt",
        "2 * u64::from(rev32(hash)) + 1",
        "1 + 2 * u64::from(rev32(hash))",
        "stays proved\n",
    ),
    "another_factor": (
        "src/keys.rt",
        "2 * u64::from(rev32(bucket))",
        "4 * u64::from(rev32(bucket))",
        "refused: pub keys::dummy_key: ensures\n",
    ),
    "no_text": ("src/keys.rt", "number.swap_bits()", "number", "BAD EDIT: "),
}


def test_clauses(faults):
    for goal, clause in GOALS.items():
        faults.expect(clause_of(goal) == clause, "the clause of a goal", f"{goal}: {clause}")
    report = SimpleNamespace(lines=REPORT.split("\n"))
    known = functions("src/keys.rt", FUNCTIONS)
    found = Failing(report).of(known)
    named = {function.name: clauses for function, clauses in found.items()}
    faults.expect(named == FAILING, "the clauses that fail in a report", str(named))
    for text, kind in KINDS.items():
        faults.expect(kind_of(text) == kind, "the kind of a mutant", f"{text}: {kind_of(text)}")
    with tempfile.TemporaryDirectory(prefix="mutants-self-") as folder:
        test_record(faults, f"{folder}/tried")


def test_record(faults, file):
    """Tests that a record without lines for mutants is valid, and stays so when another crate is
    written."""
    with open(file, "w", encoding="utf-8") as written:
        written.write(OLD)
    sums = {"one_key": "0123", "two_keys": "4567"}
    for name, made in sums.items():
        faults.expect(Record(file).has(name, made), "a line of an old record is valid", name)
    Record(file).write(sums, "one_key", True, NEW["one_key"])
    record = Record(file)
    for name, made in sums.items():
        is_kept = record.has(name, made) and record.named.get(name, {}) == NEW[name]
        faults.expect(is_kept, "a record has what was written", f"{name}: {record.named}")
    record.write({**sums, "one_key": "89ab"}, "two_keys", True)
    faults.expect("one_key" not in Record(file).named, "no line of an old text stays", file)


def test_controls(faults, room):
    folder = f"{room.folder}/crates/split_key/controls"
    os.makedirs(folder, exist_ok=True)
    for name in os.listdir(folder):
        os.remove(f"{folder}/{name}")
    for name, (file, old, new, _) in CONTROLS.items():
        with open(f"{folder}/{name}.edit", "w", encoding="utf-8") as written:
            written.write(f"file: {file}\nold: {old}\nnew: {new}\n")
    status, text = room.tried("--controls", "split_key")
    for name, (_, _, _, ends) in CONTROLS.items():
        line = f"\ncontrol split_key/{name}.edit: {ends}"
        faults.expect(line in text, f"the control {name}: {ends.strip()}", text)
    ends = text.endswith("\n2 of 3 controls stay proved, 1 could not be tried\n")
    faults.expect(status == 1 and ends, "controls are counted", text)
