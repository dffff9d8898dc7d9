//! A split-ordered list in hand-written Rust, laid out as `node_list` is: keys and links in one arena, items in another.
use crate::order::shuffled;
use crate::term::Term;

const NONE: usize = usize::MAX;

/// The objects of one key: one of them lies inside.
#[allow(dead_code)]
pub enum Chain {
    One(Term),
    Many(Vec<Term>),
}

struct Node {
    key: u64,
    next: usize,
}

type Item = Option<(Term, Chain)>;

pub struct List {
    nodes: Vec<Node>,
    items: Vec<Item>,
}

fn fnv(bytes: impl IntoIterator<Item = u8>) -> u32 {
    bytes.into_iter().fold(2_166_136_261, |hash, byte| (hash ^ u32::from(byte)).wrapping_mul(16_777_619))
}

/// The hash of an integer: FNV-1a over the byte 1, then its sixteen bytes.
fn hash(n: i128) -> u32 {
    fnv([1].into_iter().chain(n.to_be_bytes()))
}

impl List {
    pub fn new() -> List {
        List { nodes: vec![Node { key: 0, next: NONE }], items: vec![None] }
    }

    pub fn insert(&mut self, start: usize, key: u64, item: Item) -> usize {
        let mut last = start;
        loop {
            let next = self.nodes[last].next;
            if next == NONE || self.nodes[next].key > key {
                break;
            }
            last = next;
        }
        let at = self.nodes.len();
        let next = std::mem::replace(&mut self.nodes[last].next, at);
        self.nodes.push(Node { key, next });
        self.items.push(item);
        at
    }

    pub fn find(&self, start: usize, key: u64, term: &Term) -> Option<usize> {
        let mut at = start;
        while at != NONE {
            let node = &self.nodes[at];
            if node.key > key {
                return None;
            }
            if node.key == key && self.items[at].as_ref().is_some_and(|item| item.0 == *term) {
                return Some(at);
            }
            at = node.next;
        }
        None
    }
}

/// Inserts `items` objects `{K,1}` into `buckets` chains, then finds each where `finds` is not 0, and answers how many it found.
pub fn phase(items: u64, buckets: u64, finds: u64) -> u64 {
    let mut list = List::new();
    list.nodes.reserve((items + buckets) as usize);
    list.items.reserve((items + buckets) as usize);
    let mut dummies = vec![0];
    for bucket in 1..buckets as u32 {
        let parent = bucket - (1 << (31 - bucket.leading_zeros()));
        dummies.push(list.insert(dummies[parent as usize], 2 * u64::from(bucket.reverse_bits()), None));
    }
    let place = |k: u64| {
        let hash = hash(k.into());
        (dummies[(hash as u64 & (buckets - 1)) as usize], 2 * u64::from(hash.reverse_bits()) + 1)
    };
    for k in shuffled(items, 1) {
        let (start, key) = place(k);
        let object = Term::Tuple(vec![Term::Int(k.into()), Term::Int(1)]);
        list.insert(start, key, Some((Term::Int(k.into()), Chain::One(object))));
    }
    if finds == 0 {
        return 0;
    }
    let found = |k: &u64| {
        let (start, key) = place(*k);
        list.find(start, key, &Term::Int((*k).into())).is_some()
    };
    shuffled(items, 2).filter(found).count() as u64
}
