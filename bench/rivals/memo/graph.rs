// What is known of each name, and the rows: what a search looks at.
use crate::lines::Stamp;
use crate::rows::{Mark, Rows};
use std::borrow::Cow;

#[derive(Clone, Copy, PartialEq)]
pub enum State {
    Idle,
    Building(u16),
    Built,
    Failed,
}

#[derive(Clone)]
pub struct Cell {
    pub state: State,
    pub always: bool,
    pub file: Option<Stamp>,
    pub done: Option<Stamp>,
    pub digest: Option<u32>,
    pub builds: u32,
    pub holder: Option<u16>,
    pub grants: u32,
}

pub const UNKNOWN: Cell = Cell {
    state: State::Idle,
    always: false,
    file: None,
    done: None,
    digest: None,
    builds: 0,
    holder: None,
    grants: 0,
};

impl Cell {
    fn mark(&self) -> Mark {
        match (self.state, self.file) {
            (State::Idle, None) => Mark::Absent,
            (State::Idle, Some(Stamp { at, len })) => Mark::File { at, len },
            (State::Built, _) => self.digest.map_or(Mark::Builds(self.builds), Mark::Digest),
            (State::Building(_) | State::Failed, _) => Mark::Pending,
        }
    }
}

pub struct Graph<'a> {
    // where the stamps are
    pub text: Cow<'a, [u8]>,
    pub digests: Cow<'a, [[u8; 20]]>,
    pub cells: Vec<Cell>,
    // the mark of each name, which its cell has as well: these lie closer together
    pub marks: Vec<Mark>,
    pub changes: Rows<Mark>,
    pub created: Rows<()>,
}

impl<'a> Graph<'a> {
    pub fn new(text: &'a [u8], digests: &'a [[u8; 20]], names: usize) -> Graph<'a> {
        Graph {
            text: text.into(),
            digests: digests.into(),
            cells: vec![UNKNOWN; names],
            marks: vec![Mark::Absent; names],
            changes: Rows::new(names),
            created: Rows::new(names),
        }
    }

    pub fn cell(&self, n: u32) -> &Cell {
        &self.cells[n as usize]
    }

    pub fn mark(&self, n: u32) -> Mark {
        self.marks[n as usize]
    }

    // for what changes no mark
    pub fn cell_mut(&mut self, n: u32) -> &mut Cell {
        &mut self.cells[n as usize]
    }

    pub fn change(&mut self, n: u32, edit: impl FnOnce(&mut Cell)) {
        let cell = &mut self.cells[n as usize];
        edit(cell);
        self.marks[n as usize] = cell.mark();
    }

    pub fn is_same_digest(&self, a: u32, b: u32) -> bool {
        self.digests[a as usize] == self.digests[b as usize]
    }

    pub fn is_same_stamp(&self, a: Option<Stamp>, b: Option<Stamp>) -> bool {
        a == b || matches!((a, b), (Some(a), Some(b)) if a.of(&self.text) == b.of(&self.text))
    }

    pub fn is_same_mark(&self, a: Mark, b: Mark) -> bool {
        match (a, b) {
            _ if a == b => true,
            (Mark::File { at, len }, Mark::File { at: from, len: size }) => {
                Stamp { at, len }.of(&self.text) == Stamp { at: from, len: size }.of(&self.text)
            }
            (Mark::Digest(a), Mark::Digest(b)) => self.is_same_digest(a, b),
            _ => false,
        }
    }

    // whether a name is idle, and some target has a row on it
    pub fn is_source(&self, n: u32) -> bool {
        let has_rows = !self.changes.on(n).is_empty() || !self.created.on(n).is_empty();
        has_rows && self.cell(n).state == State::Idle
    }

    // whether a name is a target that has a reason of its own, or a change row on what is known to
    // be out of date
    pub fn has_reason(&self, t: u32, is_out: impl Fn(u32) -> bool) -> bool {
        let cell = self.cell(t);
        let has_file = |n: u32| self.cell(n).file.is_some();
        let has_changed = |n: u32, mark: Mark| !self.is_same_mark(self.mark(n), mark);
        match cell.state {
            State::Idle => false,
            State::Building(_) | State::Failed => true,
            State::Built => {
                let mut changes = self.changes.of(t).iter();
                cell.always
                    || !self.is_same_stamp(cell.file, cell.done)
                    || self.created.of(t).iter().any(|row| has_file(row.name))
                    || changes.any(|row| is_out(row.name) || has_changed(row.name, row.mark))
            }
        }
    }
}
