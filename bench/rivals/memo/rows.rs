// Dependency rows. A row and its entry in the list of the name that it is on know each other's
// places, so each is put and taken out in a few steps, however many rows are on the name.
use std::num::NonZeroU8;

#[derive(Clone, Copy, PartialEq)]
pub enum Mark {
    Absent,
    Pending,
    // a file stamp, in eight bytes with the rest
    File { at: u32, len: NonZeroU8 },
    Builds(u32),
    Digest(u32),
}

// a row of a target: the name that it is on, and its place in the list there
pub struct Row<M> {
    pub name: u32,
    place: u32,
    pub mark: M,
}

// a row on a name: its target, and its place there
#[derive(Clone, Copy)]
pub struct On {
    pub target: u32,
    place: u32,
}

// the rows of a name, and those on it
pub struct Links<M> {
    of: Vec<Row<M>>,
    on: Vec<On>,
}

// all rows of a kind
pub struct Rows<M>(pub Vec<Links<M>>);

impl<M> Links<M> {
    pub fn none() -> Links<M> {
        Links { of: Vec::new(), on: Vec::new() }
    }
}

impl<M> Rows<M> {
    pub fn new(names: usize) -> Rows<M> {
        Rows((0..names).map(|_| Links::none()).collect())
    }

    pub fn of(&self, target: u32) -> &[Row<M>] {
        &self.0[target as usize].of
    }

    pub fn on(&self, name: u32) -> &[On] {
        &self.0[name as usize].on
    }

    // a row on a name that has none of this target
    pub fn push(&mut self, target: u32, name: u32, mark: M) {
        let at = self.of(target).len() as u32;
        let on = &mut self.0[name as usize].on;
        let place = on.len() as u32;
        on.push(On { target, place: at });
        self.0[target as usize].of.push(Row { name, place, mark });
    }

    pub fn set(&mut self, target: u32, at: usize, mark: M) {
        self.0[target as usize].of[at].mark = mark;
    }

    pub fn clear(&mut self, target: u32) {
        while let Some(Row { name, place, .. }) = self.0[target as usize].of.pop() {
            let on = &mut self.0[name as usize].on;
            on.swap_remove(place as usize);
            if let Some(On { target, place: at }) = on.get(place as usize).copied() {
                self.0[target as usize].of[at as usize].place = place;
            }
        }
    }
}
