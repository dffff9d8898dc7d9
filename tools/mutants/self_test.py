"""Tests the program: plants, among the mutants of split_key, edits that it must report."""
import os
import re
import shutil
import subprocess
import sys
import tempfile

from .checks import OWN, UNANSWERED
from .crates import without_comments
from .functions import functions
from .lanes import fate
from .record import Record, logic_of
from .self_clauses import test_clauses, test_controls
from .self_visible import test_what_is_visible

# Each planted edit: its file, the text before and after, and the verdict that it must get.
PLANTED = {
    "a_comment": ("src/keys.rt", "in reverse order.", "in the reverse order.", "NOT REJECTED"),
    "a_mask_by_name": (
        "src/buckets.rt",
        "hash & (size - 1)",
        "{ let mask = size - 1; hash & mask }",
        "NOT REJECTED",
    ),
    # (the function that it calls is changed in the same round, so it has no goal of its own there)
    "a_sum_turned_round": (
        "src/keys.rt",
        "2 * u64::from(rev32(hash)) + 1",
        "1 + 2 * u64::from(rev32(hash))",
        "NOT REJECTED",
    ),
    "a_text_that_is_gone": ("src/keys.rt", "number.swap_bits()", "number", "BAD EDIT"),
    "a_word_that_is_none": (
        "src/buckets.rt",
        "bucket - (1 << top)",
        "bucket - (1 << tip)",
        "BAD EDIT",
    ),
}


# Lines of the prover, and whether each says that the function has a goal of its own.
VERDICTS = {
    "fn keys::rev32: not proved": True,
    "fn keys::rev32: no proof: 1 goal is open": True,
    "fn keys::rev32: no proof: in `keys::item`, of this cycle of calls: 1 goal is open": True,
    "fn keys::rev32: no proof: it calls `keys::item`, which is not proved": False,
    "fn keys::rev32: no proof: in `keys::item`, of this cycle of calls: "
    "it calls `keys::key`, which is not proved": False,
    "fn keys::rev32: proved": False,
}

# A line that reports a goal without an answer, and the folder in which that is missing.
NO_ANSWER = (
    "fn keys::rev32: no proof: expected answers in ./proofs/keys/rev32/Answers.antt; "
    "`search` did not prove `returns`"
)
NO_ANSWER_IN = "proofs/keys/rev32"

# Folders of proofs, and whether each is that of a cycle of calls with `workers::run_from`.
CYCLES = {
    "proofs/workers/+fn-run_from-join+arg2+run_from": True,
    "proofs/workers/+run_from_here": False,
    "proofs/others/+run_from": False,
    "proofs/workers/run_from": False,
}

# Ends of the output of `rt ci`, and whether split_key is proved by it.
FATES = {
    "rt: split_key proved\n": True,
    "rt: split_key is kept: an earlier run on this machine proved the same files\n": True,
    "rt: split_key NOT PROVED\n": False,
    "rt: split_key: its tests are proved\n": None,
    "rt: split_key_more proved\n": None,
    "rt: node_list proved\n3 passed, 1 failed\n": False,
}


# Lines of kits, and the logic in each.
KITS = {"rattle-kit-13b logic dac8": "dac8", "rattle-kit-13f logic dac8": "dac8", "a kit": "a kit"}


# Files, and what the record has of them.
COMMENTED = [
    ("src/lib.rt", b"//! All keys.\nfn key() {\n    // why\n}", b"fn key() {\n}"),
    ("specs/Key.antt", b"-- a key\nkey = 1 -- one", b"key = 1 -- one"),
    ("must-fail/a.edit", b"-- as it is", b"-- as it is"),
]


class Room:
    """A tree of its own with the crate split_key and this program."""

    def __init__(self, top, folder):
        self.folder, self.edits = folder, f"{folder}/crates/split_key/must-fail"
        shutil.copytree(
            f"{top}/tools", f"{folder}/tools", ignore=shutil.ignore_patterns("__pycache__")
        )
        os.mkdir(f"{folder}/.ci")
        shutil.copy(f"{top}/.ci/mutants", f"{folder}/.ci")
        shutil.copytree(
            f"{top}/crates/split_key",
            f"{folder}/crates/split_key",
            ignore=shutil.ignore_patterns("out"),
        )
        with open(f"{folder}/crates.txt", "w", encoding="utf-8") as listed:
            listed.write("split_key:\n")

    def plant(self):
        for name, (file, old, new, _) in PLANTED.items():
            with open(f"{self.edits}/{name}.edit", "w", encoding="utf-8") as written:
                written.write(f"file: {file}\nold: {old}\nnew: {new}\n")

    def tried(self, *words):
        """Returns the status of a run and its output. Its checks have one job, which takes the
        least CPU time."""
        ran = subprocess.run(
            [f"{self.folder}/.ci/mutants", "--lanes", "1", *words],
            stdout=subprocess.PIPE,
            text=True,
        )
        return ran.returncode, ran.stdout


class Faults:
    """What was found not to be so."""

    def __init__(self):
        self.count = 0

    def expect(self, is_so, what, text):
        if not is_so:
            self.count += 1
            print(f"not so: {what}:\n{text}", file=sys.stderr)


def test_prover_lines(faults):
    for line, is_own in VERDICTS.items():
        faults.expect(bool(OWN.match(line)) == is_own, "a line of the prover", line)
    found = UNANSWERED.match(NO_ANSWER)
    faults.expect(found and found[1] == NO_ANSWER_IN, "a goal without an answer", NO_ANSWER)
    member = functions("src/workers.rt", "fn run_from() {\n}\n")[0]
    for folder, is_its in CYCLES.items():
        faults.expect(member.has_cycle(folder) == is_its, "a cycle of calls", folder)
    for text, is_proved in FATES.items():
        faults.expect(fate("split_key", text) == is_proved, "what rt ci says", text)
    for line, logic in KITS.items():
        faults.expect(logic_of(line) == logic, "the logic of a kit", line)
    for path, text, left in COMMENTED:
        faults.expect(without_comments(path, text) == left, "a text without comments", text)


def test_trials(faults, room):
    true, tried = len(os.listdir(room.edits)), f"{room.folder}/.ci/tried"
    Record(tried).write({"split_key": "a_checksum"}, "split_key", True)
    faults.expect(Record(tried).has("split_key", "a_checksum"), "the record has a line", tried)
    status, text = room.tried("--dry-run")
    listed = f"split_key: {true} mutants: the record does not have its text\n"
    faults.expect((status, text) == (0, listed), "a dry run lists what would be tried", text)
    room.plant()
    status, text = room.tried("--write")
    ends = text.endswith(f"\n{true} rejected, {len(PLANTED)} not\n")
    faults.expect(status == 1 and ends, "among others, all planted edits are reported", text)
    for name, (_, _, _, word) in PLANTED.items():
        line = rf"^mutants: must-fail split_key/{name}.edit: {word}: "
        faults.expect(re.search(line, text, re.M), f"{name} is {word}", text)
    faults.expect(not Record(tried).sums, "the record has no line of it any more", text)
    mask = "split_key/bucket_of_by_another_mask"
    status, text = room.tried("split_key/a_mask_by_name", mask)
    ends = text.endswith("\n1 rejected, 1 not\n")
    faults.expect(status == 1 and ends, "a weak edit by itself is reported", text)
    line = f"\nmutants: {mask}.edit: pub buckets::bucket_of: ensures\n"
    faults.expect(line in text, "the clause is named that another edit breaks", text)


def self_test(top):
    faults = Faults()
    test_prover_lines(faults)
    test_what_is_visible(faults)
    test_clauses(faults)
    with tempfile.TemporaryDirectory(prefix="mutants-self-") as folder:
        room = Room(top, folder)
        test_trials(faults, room)
        test_controls(faults, room)
    print(f"mutants --self: {faults.count} faults")
    return 1 if faults.count else 0
