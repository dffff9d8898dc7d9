"""How many mutants are rejected at which clauses, by the record."""
from .clauses import ARITHMETIC, FALSE, UNREADABLE
from .edits import edits_of
from .naming import NOT_SAID

KINDS = ("public ensures", "inner clause", "arithmetic", UNREADABLE, NOT_SAID)


def kind_of(text):
    """Returns the kind of a mutant, by its text in the record. Of several clauses that fail, the
    first kind counts that one has."""
    clauses, is_at_public = [], False
    for part in text.split("; "):
        head, _, listed = part.rpartition(": ")
        mine = [clause.removesuffix(FALSE) for clause in listed.split(", ")]
        clauses += mine
        is_ensures = any(clause.partition(" ")[0] == "ensures" for clause in mine)
        is_at_public = is_at_public or head.startswith("pub ") and is_ensures
    left = [clause for clause in clauses if clause not in (UNREADABLE, NOT_SAID)]
    if is_at_public:
        return KINDS[0]
    if left:
        return KINDS[2] if all(clause in ARITHMETIC for clause in left) else KINDS[1]
    return NOT_SAID if NOT_SAID in clauses else UNREADABLE


def summary(crates, record):
    """Returns a table of the kinds by crate, and a last line with the sums."""
    lines, total = [], [0] * (len(KINDS) + 2)
    for crate in crates:
        edits, texts = edits_of(crate), record.named.get(crate.name, {})
        kinds = [kind_of(texts[edit.name]) for edit in edits if edit.name in texts]
        counts = [len(edits), *map(kinds.count, KINDS), len(edits) - len(kinds)]
        if edits:
            lines.append((crate.name, counts))
            total = [one + other for one, other in zip(total, counts)]
    heads = ["mutants", *KINDS, "no clause yet"]
    rows = [f"{'crate':16}  " + "  ".join(heads)]
    for name, counts in [*lines, ("all", total)]:
        cells = (f"{count:{len(head)}}" for count, head in zip(counts, heads))
        rows.append(f"{name:16}  " + "  ".join(cells))
    named = total[0] - total[-1]
    rows.append(
        f"of {named} mutants with their clauses in the record, {total[1]} are rejected at a "
        f"public `ensures`, {total[2]} at an inner clause, {total[3]} at a check of arithmetic"
    )
    return "\n".join(rows)
