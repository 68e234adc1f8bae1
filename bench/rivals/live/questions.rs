// The questions: why a target is out of date, what it depends on, what depends on a name, and what
// is known of a name, or of all. They change nothing, and a name that isn't known is idle.
use crate::database::Database;
use crate::graph::{Graph, State, UNKNOWN};
use crate::printing::Printer;
use crate::reading::{fault_of_bytes, is_name, Fault};
use crate::rows::Rows;
use crate::store::Store;

#[derive(Clone, Copy)]
enum Kind {
    Why,
    Deps,
    Users,
    State,
}

// a question, and its name
pub struct Question<'a> {
    kind: Kind,
    name: &'a [u8],
}

fn kind_of(keyword: &[u8]) -> Option<Kind> {
    Some(match keyword {
        b"why" => Kind::Why,
        b"deps" => Kind::Deps,
        b"users" => Kind::Users,
        b"state" => Kind::State,
        _ => return None,
    })
}

impl Question<'_> {
    // The question about a name that a text asks, or its fault; none if it asks none.
    pub fn of(text: &[u8]) -> Option<Result<Question<'_>, Fault>> {
        let mut words = text.split(|byte| *byte == b' ');
        let kind = kind_of(words.next()?)?;
        Some(match (fault_of_bytes(text), words.next(), words.next()) {
            (Some(fault), _, _) => Err(fault),
            (None, Some(name), None) if is_name(name) => Ok(Question { kind, name }),
            (None, Some(_), None) => Err("bad-name"),
            _ => Err("wrong-words"),
        })
    }
}

// why a target is out of date by itself, with the name in the answer: another or the target
enum Reason {
    Building,
    Failed,
    Edited,
    Always,
    Appeared(u32),
    Changed(u32),
}

impl Reason {
    fn of(graph: &Graph, t: u32) -> Option<Reason> {
        let cell = graph.cell(t);
        match cell.state {
            State::Idle => None,
            State::Building(_) => Some(Reason::Building),
            State::Failed => Some(Reason::Failed),
            State::Built if !graph.is_same_stamp(cell.file, cell.done) => Some(Reason::Edited),
            State::Built if cell.always => Some(Reason::Always),
            State::Built => Reason::of_rows(graph, t),
        }
    }

    fn of_rows(graph: &Graph, t: u32) -> Option<Reason> {
        let created = graph.created.of(t).iter().map(|row| row.name);
        let appeared = created.into_iter().find(|n| graph.cell(*n).file.is_some());
        let is_changed = |n: u32, mark| !graph.is_same_mark(graph.mark(n), mark);
        appeared.map(Reason::Appeared).or_else(|| {
            let changed = graph.changes.of(t).iter().find(|row| is_changed(row.name, row.mark));
            changed.map(|row| Reason::Changed(row.name))
        })
    }

    fn told(&self, t: u32) -> (&'static str, u32) {
        match *self {
            Reason::Building => ("building", t),
            Reason::Failed => ("failed", t),
            Reason::Edited => ("edited", t),
            Reason::Always => ("always", t),
            Reason::Appeared(name) => ("appeared", name),
            Reason::Changed(name) => ("changed", name),
        }
    }
}

// a name that was met, and the place of the one that depends on it
struct Met {
    name: u32,
    from: usize,
}

// A search for a shortest chain, level by level.
#[derive(Default)]
pub struct Search {
    met: Vec<Met>,
    // the search in which each name was met last
    turns: Vec<u32>,
    turn: u32,
}

impl Search {
    fn meet(&mut self, name: u32, from: usize) -> bool {
        let turn = &mut self.turns[name as usize];
        let is_new = *turn != self.turn;
        if is_new {
            *turn = self.turn;
            self.met.push(Met { name, from });
        }
        is_new
    }

    // the reason of the name that is met, if it has one, or else of one on which it depends
    fn reason(&mut self, store: &Store, t: u32) -> Option<Reason> {
        let graph = &store.graph;
        self.turn += 1;
        self.turns.resize(graph.cells.len(), 0);
        self.met.clear();
        self.meet(t, 0);
        if let Some(reason) = Reason::of(graph, t) {
            return Some(reason);
        }
        let mut next = 0;
        while let Some(Met { name, .. }) = self.met.get(next) {
            for row in graph.changes.of(*name) {
                if store.memo.is_out(row.name) && self.meet(row.name, next) {
                    if let Some(reason) = Reason::of(graph, row.name) {
                        return Some(reason);
                    }
                }
            }
            next += 1;
        }
        None
    }

    // the names from the one that was asked about to the one that was met last
    fn chain(&self) -> Vec<u32> {
        let mut at = self.met.len() - 1;
        let mut chain = vec![self.met[at].name];
        while at > 0 {
            at = self.met[at].from;
            chain.push(self.met[at].name);
        }
        chain.reverse();
        chain
    }
}

fn put_why(store: &Store, search: &mut Search, t: Option<u32>, printer: &mut Printer) {
    let t = match t.filter(|t| store.memo.is_out(*t)) {
        Some(t) => t,
        None => return printer.put("clean"),
    };
    let reason = search.reason(store, t).expect("what is out of date has a reason");
    let chain = search.chain();
    let (word, name) = reason.told(*chain.last().expect("a target"));
    printer.put_names(word, &[name]);
    printer.put_names("", &chain);
}

// the names on which a target has rows, counted and sorted by their bytes
fn put_rows<M>(word: &str, rows: &Rows<M>, t: Option<u32>, printer: &mut Printer) {
    let rows = t.map_or(&[][..], |t| rows.of(t));
    let mut names: Vec<u32> = rows.iter().map(|row| row.name).collect();
    let texts = printer.names;
    names.sort_unstable_by_key(|n| texts[*n as usize]);
    printer.put_names(&format!("{word} {}", names.len()), &names);
}

fn put_deps(graph: &Graph, t: Option<u32>, printer: &mut Printer) {
    put_rows("change", &graph.changes, t, printer);
    put_rows(" created", &graph.created, t, printer);
    let has_always = t.map_or(false, |t| graph.cell(t).always);
    printer.put(format!(" always {}", u8::from(has_always)));
}

// the targets that have a row on a name, counted and sorted by their bytes
fn put_users<M>(word: &str, rows: &Rows<M>, n: Option<u32>, printer: &mut Printer) {
    let rows = n.map_or(&[][..], |n| rows.on(n));
    let mut users: Vec<u32> = rows.iter().map(|row| row.target).collect();
    let texts = printer.names;
    users.sort_unstable_by_key(|t| texts[*t as usize]);
    printer.put_names(&format!("{word} {}", users.len()), &users);
}

fn put_digest(digest: Option<u32>, printer: &mut Printer) {
    const DIGITS: &[u8; 16] = b"0123456789abcdef";
    let bytes = match digest {
        Some(digest) => printer.digests[digest as usize],
        None => return printer.put(" -"),
    };
    printer.text.push(b' ');
    for byte in bytes {
        printer.text.push(DIGITS[usize::from(byte >> 4)]);
        printer.text.push(DIGITS[usize::from(byte & 15)]);
    }
}

// six words for each name: itself, its file, state, builds, the file of its last build, its digest
fn put_all(graph: &Graph, printer: &mut Printer) {
    let names = printer.names;
    printer.put(format!("{}", names.len()));
    for (name, cell) in names.iter().zip(&graph.cells) {
        printer.text.push(b' ');
        printer.text.extend_from_slice(name);
        printer.put_stamp(cell.file);
        printer.put(match cell.state {
            State::Idle => " idle",
            State::Building(_) => " building",
            State::Built => " built",
            State::Failed => " failed",
        });
        printer.put(format!(" {}", cell.builds));
        printer.put_stamp(cell.done);
        put_digest(cell.digest, printer);
    }
}

fn put_state(graph: &Graph, n: Option<u32>, printer: &mut Printer) {
    let cell = n.map_or(&UNKNOWN, |n| graph.cell(n));
    match cell.state {
        State::Idle => printer.put("idle"),
        State::Building(session) => printer.put(format!("building {session}")),
        State::Built => printer.put("built"),
        State::Failed => printer.put("failed"),
    }
    let holder = cell.holder.map_or("-".to_string(), |session| session.to_string());
    printer.put(format!(" lock {holder} file"));
    printer.put_stamp(cell.file);
}

impl Database {
    // Prints the answer to a question.
    pub fn tell(&mut self, question: &Question, said: &mut Vec<u8>) {
        let number = self.names.numbers.get(question.name).copied();
        let graph = &self.store.graph;
        let (names, stamps, digests) = (&self.names.texts, &graph.text, &graph.digests);
        let mut printer = Printer { names, stamps, digests, text: std::mem::take(said) };
        printer.put(" => ");
        match question.kind {
            Kind::Why => put_why(&self.store, &mut self.search, number, &mut printer),
            Kind::Deps => put_deps(graph, number, &mut printer),
            Kind::Users => {
                put_users("change", &graph.changes, number, &mut printer);
                put_users(" created", &graph.created, number, &mut printer);
            }
            Kind::State => put_state(graph, number, &mut printer),
        }
        printer.put("\n");
        *said = printer.text;
    }

    // Prints what is known of all names.
    pub fn tell_all(&mut self, said: &mut Vec<u8>) {
        let graph = &self.store.graph;
        let (names, stamps, digests) = (&self.names.texts, &graph.text, &graph.digests);
        let mut printer = Printer { names, stamps, digests, text: std::mem::take(said) };
        printer.put(" => ");
        put_all(graph, &mut printer);
        printer.put("\n");
        *said = printer.text;
    }
}
