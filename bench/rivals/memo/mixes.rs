// Histories of mixed work.
use crate::writing::{numbered, Stamps, Writer};
use std::collections::BTreeSet;

#[derive(Clone, Copy, PartialEq)]
pub enum Mix {
    Plain,
    Builds,
    Queries,
    Header,
}

// this many builds, and then a source changes
const BUILDS: usize = 16;
// before each such query the header changes
const QUERIES: usize = 100;

// Programs of 8 archives of 8 objects each. The numbers are first those of the sources, then of the
// objects, the archives, the programs and the header.
struct Plan {
    sources: u32,
    programs: u32,
    header: Option<u32>,
}

impl Plan {
    // a plan of this many names, at least 140
    fn new(names: u32, has_header: bool) -> Plan {
        let header = has_header.then(|| names - 1);
        let others = names - u32::from(has_header);
        let programs = others / 137;
        Plan { sources: others - 73 * programs, programs, header }
    }

    fn texts(&self) -> Vec<String> {
        let programs = self.programs as usize;
        let sources = numbered(self.sources as usize, "src", ".c");
        let objects = numbered(64 * programs, "out", ".o");
        let archives = numbered(8 * programs, "lib", ".a");
        let programs = numbered(programs, "bin", "");
        let header = self.header.map(|_| "src/all.h".to_string());
        sources.chain(objects).chain(archives).chain(programs).chain(header).collect()
    }

    // the target that is built at a turn: program by program, each target after what it is made of
    fn target_at(&self, turn: usize) -> u32 {
        let turn = (turn % (73 * self.programs as usize)) as u32;
        let (program, at) = (turn / 73, turn % 73);
        let archive = 8 * program + at / 9;
        if at == 72 {
            self.sources + 72 * self.programs + program
        } else if at % 9 == 8 {
            self.sources + 64 * self.programs + archive
        } else {
            self.sources + 8 * archive + at % 9
        }
    }

    // the first of the 8 sources of an object, if it is one
    fn first_source(&self, target: u32) -> Option<u32> {
        let object = u64::from(target - self.sources);
        let objects = 64 * u64::from(self.programs);
        (object < objects).then_some((object * u64::from(self.sources) / objects) as u32)
    }

    fn dependencies(&self, target: u32) -> Vec<u32> {
        let at = target - self.sources;
        let names: Vec<u32> = match self.first_source(target) {
            Some(first) => (first..first + 8).map(|n| n % self.sources).collect(),
            // all objects have numbers in a row, and so have all archives
            None => (self.sources + 8 * (at - 64 * self.programs)..).take(8).collect(),
        };
        self.header.into_iter().chain(names).collect()
    }
}

struct Work<'a> {
    plan: Plan,
    mix: Mix,
    writer: Writer<'a>,
    // how many sources, builds, builds in turn and queries there were so far
    sources: u32,
    builds: usize,
    turns: usize,
    queries: usize,
    // targets that were out of date at the latest query
    due: BTreeSet<u32>,
}

impl Work<'_> {
    // the first target that is due, or else the one whose turn it is
    fn next_target(&mut self) -> u32 {
        self.due.pop_first().unwrap_or_else(|| {
            self.turns += 1;
            self.plan.target_at(self.turns - 1)
        })
    }

    fn build(&mut self) {
        let target = self.next_target();
        self.builds += 1;
        let needed = self.plan.first_source(target).map_or(0, |first| first + 8);
        while self.sources < needed.min(self.plan.sources) {
            self.writer.file(self.sources, 1);
            self.sources += 1;
        }
        self.writer.build(target, &self.plan.dependencies(target), self.builds);
    }

    fn query(&mut self) {
        self.queries += 1;
        let source = (7919 * self.queries as u64 % u64::from(self.sources)) as u32;
        self.writer.file(source, self.queries + 1);
        match self.plan.header {
            // all is out of date then, so nothing is due, and the header is as before
            Some(header) if self.queries % QUERIES == 0 => {
                self.writer.file(header, 2);
                self.writer.ask();
                self.writer.file(header, 1);
            }
            _ => self.due = self.writer.ask().iter().copied().collect(),
        }
    }

    fn fill(&mut self) {
        if let Some(header) = self.plan.header {
            self.writer.file(header, 1);
        }
        while !self.writer.is_full() {
            self.build();
            if self.mix != Mix::Builds && self.builds % BUILDS == 0 {
                self.query();
            }
        }
    }
}

fn texts_of(names: &[String]) -> Vec<&[u8]> {
    names.iter().map(String::as_bytes).collect()
}

// files that come, and locks
fn plain(lines: usize, names: usize) -> (String, Vec<u8>) {
    let stamps = Stamps::up_to(lines / 3 + 1);
    let names: Vec<String> = numbered(names, "src", ".c").collect();
    let texts = texts_of(&names);
    let mut writer = Writer::new(&texts, &stamps, lines);
    for turn in 0.. {
        if writer.is_full() {
            break;
        }
        let name = (turn % names.len()) as u32;
        writer.file(name, turn + 1);
        writer.lock(name);
        writer.unlock(name);
    }
    writer.history()
}

// a history of this many lines over this many names, or over fewer if the lines don't suffice
pub fn history_of(mix: Mix, lines: usize, names: usize) -> (String, Vec<u8>) {
    if mix == Mix::Plain {
        return plain(lines, names);
    }
    let plan = Plan::new(names as u32, mix == Mix::Header);
    let stamps = Stamps::up_to(lines);
    let names = plan.texts();
    let texts = texts_of(&names);
    let writer = Writer::new(&texts, &stamps, lines);
    let due = BTreeSet::new();
    let mut work = Work { plan, mix, writer, sources: 0, builds: 0, turns: 0, queries: 0, due };
    work.fill();
    work.writer.history()
}
