"""Tests of visible.py: what a crate sees of the crates below it."""
from .visible import Item, items_of_definitions, items_of_source, origins_of

# A source, and what other crates can see of it: each name with its text.
SOURCE = """pub const MOST: u32 = 3;
#[derive(Drop)]
pub struct Box<T> {
    pub first: T,
    rest: Vec<T>,
}
enum Inside {
    One,
}
impl<T> Shelf for Box<T> {
    ghost content = { b };

    #[inline]
    fn get(&self) -> u32
        ensures { result ≡ most }
    {
        3
    }
}
pub trait Shelf {
    fn len(&self) -> usize
        ensures { result ≡ 0 };
}"""
SEEN = [
    ("get", "Box\n    fn get(&self) -> u32\n        ensures { result ≡ most }"),
    ("len", "Shelf\n    fn len(&self) -> usize\n        ensures { result ≡ 0 };"),
    ("MOST", "pub const MOST: u32 = 3;"),
    (
        "Box",
        "#[derive(Drop)]\npub struct Box<T> {\n    pub first: T,\n}\nimpl<T> Shelf for Box<T> "
        "{\n    ghost content = { b };\n}",
    ),
    ("Shelf", "pub trait Shelf {\n}"),
]

# A specification, and the names that other crates can see of it.
DEFINED = "abbrev pub most : ℕ\nmost = 3\n\npub record Shelf : Type 0 where\n  pub len : ℕ\n"
DEFINED_NAMES = ["most", "Shelf"]

# Lines that bring names in, and from where each name comes.
IMPORTED = {
    "use Rattle.ownership.specs.Tables": {"Tables": ["Rattle.ownership.specs.Tables"]},
    "use Rattle.ownership.specs.Tables as tables": {"tables": ["Rattle.ownership.specs.Tables"]},
    "use Rattle.ets_term.Term.{Int, List as ListOf}": {
        "Int": ["Rattle.ets_term.Term.Int"],
        "ListOf": ["Rattle.ets_term.Term.List"],
    },
    "ghost use Rattle.ets_term.Term as term;": {"term": ["Rattle.ets_term.Term"]},
    "pub use list::{List, Nodes as Places};": {"List": ["list.List"], "Places": ["list.Nodes"]},
}


def test_what_is_visible(faults):
    seen = list(items_of_source(SOURCE.split("\n")))
    faults.expect(seen == SEEN, "what is seen of a source", str(seen))
    names = [name for name, _ in items_of_definitions(DEFINED.split("\n"))]
    faults.expect(names == DEFINED_NAMES, "what is seen of a specification", str(names))
    for line, origins in IMPORTED.items():
        found = origins_of([line])
        faults.expect(found == origins, "from where names come", f"{line}: {found}")
    one, other = (
        Item((), "start", "start = tables.of", origins_of([f"use specs.{module} as tables"]))
        for module in ("Tables", "Heirs")
    )
    is_other = one.origins != other.origins and "Heirs" in other.words
    faults.expect(is_other, "an alias of another file is another item", str(other.origins))
