//! The same script language as `ets_script`, as a hand-written Rust program: std only, no proofs.
//!
//! It answers the calls that the workloads of this folder make, and takes good scripts only.
mod term;

use std::collections::HashMap;
use std::io::{self, BufRead, Write};
use term::{Reader, Term, atom, print};

#[derive(Clone, Copy, PartialEq)]
enum Kind {
    Set,
    Bag,
    DuplicateBag,
}

/// Slots in order of insertion, found by a hash map; a slot without objects is held or gone.
struct Table {
    name: Term,
    owner: u32,
    heir: Option<(u32, Term)>,
    kind: Kind,
    places: HashMap<Term, usize>,
    slots: Vec<Option<(Term, Vec<Term>)>>,
    fixes: u32,
}

impl Table {
    fn objects(&self, key: &Term) -> &[Term] {
        self.places.get(key).and_then(|at| self.slots[*at].as_ref()).map_or(&[], |slot| &slot.1)
    }

    fn insert(&mut self, object: Term) {
        let key = key_of(&object).clone();
        let at = *self.places.entry(key.clone()).or_insert(self.slots.len());
        if at == self.slots.len() {
            self.slots.push(Some((key, Vec::new())));
        }
        let objects = &mut self.slots[at].as_mut().unwrap().1;
        match self.kind {
            Kind::Set => objects.clear(),
            Kind::Bag if objects.contains(&object) => return,
            _ => {}
        }
        objects.push(object);
    }

    fn delete(&mut self, key: &Term) {
        let Some(&at) = self.places.get(key) else { return };
        if self.fixes > 0 {
            self.slots[at].as_mut().unwrap().1.clear();
        } else {
            self.slots[at] = None;
            self.places.remove(key);
        }
    }

    fn release(&mut self) {
        self.fixes -= 1;
        if self.fixes == 0 {
            for slot in &mut self.slots {
                if let Some((key, _)) = slot.take_if(|slot| slot.1.is_empty()) {
                    self.places.remove(&key);
                }
            }
        }
    }

    fn key_from(&self, at: usize) -> Term {
        self.slots[at..].iter().flatten().find(|slot| !slot.1.is_empty()).map_or(atom("$end_of_table"), |slot| slot.0.clone())
    }

    fn count(&mut self, key: &Term, by: &Term) -> Term {
        let (place, by) = match by {
            Term::Int(by) => (1, *by),
            Term::Tuple(row) => match row[..] {
                [Term::Int(place), Term::Int(by)] => (place as usize - 1, by),
                _ => unreachable!(),
            },
            _ => unreachable!(),
        };
        let at = self.places[key];
        let Term::Tuple(object) = &mut self.slots[at].as_mut().unwrap().1[0] else { unreachable!() };
        let Term::Int(value) = &mut object[place] else { unreachable!() };
        *value = value.checked_add(by).expect("a counter in range");
        Term::Int(*value)
    }

    /// The values of a specification of one clause with the head `{Key,'$1'}` and the body `['$1']`.
    fn select(&self, spec: &Term) -> Vec<Term> {
        let Term::List(clauses) = spec else { unreachable!() };
        let Term::Tuple(clause) = &clauses[0] else { unreachable!() };
        let Term::Tuple(head) = &clause[0] else { unreachable!() };
        let least = match &clause[1] {
            Term::List(conditions) => conditions.first().map(|condition| match condition {
                Term::Tuple(parts) => parts[2].clone(),
                _ => unreachable!(),
            }),
            _ => unreachable!(),
        };
        let value = |object: &Term| match object {
            Term::Tuple(row) if row.len() == 2 && least.as_ref().is_none_or(|least| row[1] > *least) => Some(row[1].clone()),
            _ => None,
        };
        if head[0] == atom("_") {
            return self.slots.iter().flatten().flat_map(|slot| &slot.1).filter_map(value).collect();
        }
        self.objects(&head[0]).iter().filter_map(value).collect()
    }

    /// The bindings of a pattern `{Key,'$1','$2'}`.
    fn matches(&self, pattern: &Term) -> Vec<Term> {
        let Term::Tuple(parts) = pattern else { unreachable!() };
        let bindings = |object: &Term| match object {
            Term::Tuple(row) if row.len() == 3 => Some(Term::List(row[1..].to_vec())),
            _ => None,
        };
        self.objects(&parts[0]).iter().filter_map(bindings).collect()
    }

    /// Deletes the objects of a set whose second element is below a bound, and says how many there were.
    fn select_delete(&mut self, spec: &Term) -> Term {
        let bound = bound_of(spec);
        let before = self.places.len();
        let slots = std::mem::take(&mut self.slots);
        let stays = |object: &Term| !matches!(object, Term::Tuple(row) if row[1] < *bound);
        self.slots = slots.into_iter().filter(|slot| slot.as_ref().is_some_and(|slot| stays(&slot.1[0]))).collect();
        self.places = self.slots.iter().enumerate().map(|(at, slot)| (slot.as_ref().unwrap().0.clone(), at)).collect();
        Term::Int((before - self.places.len()) as i128)
    }
}

/// The number that the variable is compared with in the only condition of a specification of one clause.
fn bound_of(spec: &Term) -> &Term {
    let Term::List(clauses) = spec else { unreachable!() };
    let Term::Tuple(clause) = &clauses[0] else { unreachable!() };
    let Term::List(conditions) = &clause[1] else { unreachable!() };
    let Term::Tuple(condition) = &conditions[0] else { unreachable!() };
    &condition[2]
}

fn key_of(object: &Term) -> &Term {
    match object {
        Term::Tuple(row) => &row[0],
        _ => panic!("an object"),
    }
}

#[derive(Default)]
struct Node {
    pids: HashMap<Box<str>, u32>,
    lives: Vec<bool>,
    mail: Vec<Vec<Term>>,
    tables: Vec<Option<Table>>,
    names: HashMap<Term, usize>,
    owned: Vec<Vec<usize>>,
}

impl Node {
    fn table(&mut self, term: &Term) -> &mut Table {
        let at = match term {
            Term::Tid(n) => *n as usize,
            name => self.names[name],
        };
        self.tables[at].as_mut().unwrap()
    }

    fn make(&mut self, pid: u32, args: &[Term]) -> Term {
        let mut table = Table { name: Term::Tid(self.tables.len() as u32), owner: pid, heir: None, kind: Kind::Set, places: HashMap::new(), slots: Vec::new(), fixes: 0 };
        let Term::List(options) = &args[1] else { unreachable!() };
        for option in options {
            match option {
                Term::Atom(word) if &**word == "named_table" => table.name = args[0].clone(),
                Term::Atom(word) if &**word == "bag" => table.kind = Kind::Bag,
                Term::Atom(word) if &**word == "duplicate_bag" => table.kind = Kind::DuplicateBag,
                Term::Tuple(heir) => match &heir[..] {
                    [_, Term::Pid(pid), gift] => table.heir = Some((*pid, gift.clone())),
                    _ => unreachable!(),
                },
                _ => {}
            }
        }
        let answer = table.name.clone();
        self.names.insert(answer.clone(), self.tables.len());
        self.owned[pid as usize].push(self.tables.len());
        self.tables.push(Some(table));
        answer
    }

    fn exit(&mut self, pid: u32) {
        self.lives[pid as usize] = false;
        for at in std::mem::take(&mut self.owned[pid as usize]) {
            let table = self.tables[at].as_mut().unwrap();
            match &table.heir {
                Some((heir, gift)) if self.lives[*heir as usize] => {
                    self.mail[*heir as usize].push(Term::Tuple(vec![atom("ETS-TRANSFER"), table.name.clone(), Term::Pid(pid), gift.clone()]));
                    self.owned[*heir as usize].push(at);
                    table.owner = *heir;
                }
                _ => {
                    self.names.remove(&table.name);
                    self.tables[at] = None;
                }
            }
        }
    }

    fn ask(&mut self, pid: u32, word: &str, args: &[Term]) -> Term {
        let done = || atom("true");
        match (word, args) {
            ("new", _) => self.make(pid, args),
            ("insert", [t, Term::List(objects)]) => {
                let table = self.table(t);
                objects.iter().for_each(|object| table.insert(object.clone()));
                done()
            }
            ("insert", [t, object]) => {
                self.table(t).insert(object.clone());
                done()
            }
            ("lookup", [t, key]) => Term::List(self.table(t).objects(key).to_vec()),
            ("delete", [t, key]) => {
                self.table(t).delete(key);
                done()
            }
            ("delete", [Term::Atom(_)]) => {
                let at = self.names.remove(&args[0]).unwrap();
                self.tables[at] = None;
                done()
            }
            ("update_counter", [t, key, by]) => self.table(t).count(key, by),
            ("select", [t, spec]) => Term::List(self.table(t).select(spec)),
            ("match", [t, pattern]) => Term::List(self.table(t).matches(pattern)),
            ("select_delete", [t, spec]) => self.table(t).select_delete(spec),
            ("safe_fixtable", [t, on]) if *on == atom("true") => {
                self.table(t).fixes += 1;
                done()
            }
            ("safe_fixtable", [t, _]) => {
                self.table(t).release();
                done()
            }
            ("first", [t]) => self.table(t).key_from(0),
            ("next", [t, key]) => {
                let table = self.table(t);
                table.key_from(table.places[key] + 1)
            }
            ("receive", []) => Term::List(std::mem::take(&mut self.mail[pid as usize])),
            _ => panic!("no workload calls {word}/{}", args.len()),
        }
    }

    fn answer(&mut self, line: &[u8]) -> Option<Term> {
        let mut reader = Reader { bytes: line, at: 0 };
        let first = reader.word();
        if first.is_empty() {
            return None;
        }
        let second = reader.word();
        match first {
            "spawn" => {
                let pid = self.lives.len() as u32;
                self.pids.insert(second.into(), pid);
                self.lives.push(true);
                self.mail.push(Vec::new());
                self.owned.push(Vec::new());
                Some(Term::Pid(pid))
            }
            "exit" => {
                self.exit(self.pids[second]);
                Some(atom("true"))
            }
            name => {
                assert!(reader.takes(b'('), "a parenthesis at {}", reader.at);
                let args = reader.row(b')');
                Some(self.ask(self.pids[name], second, &args))
            }
        }
    }
}

fn main() -> io::Result<()> {
    let mut input = io::BufReader::with_capacity(1 << 16, io::stdin().lock());
    let mut output = io::BufWriter::new(io::stdout().lock());
    let mut node = Node::default();
    let (mut line, mut text) = (Vec::new(), Vec::new());
    loop {
        if input.buffer().is_empty() {
            output.flush()?; // the next read may wait
        }
        if input.read_until(b'\n', &mut line)? == 0 {
            return Ok(());
        }
        let bytes = line.strip_suffix(b"\n").unwrap_or(&line);
        if let Some(term) = node.answer(bytes) {
            text.clear();
            print(&term, &mut text);
            text.push(b'\n');
            output.write_all(&text)?;
        }
        line.clear();
    }
}
