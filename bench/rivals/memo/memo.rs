// Which targets are out of date, kept up to date. If a name has changed, its region is searched:
// the name, the targets with a change or created row on it, and each target from which change rows
// lead to one of these. Only the first of these names can have come to be out of date by their own
// rows; what else is out of date then depends on one of them, or was out of date before.
use crate::graph::Graph;

// the flags of a name: it is out of date; it was before it was met; it was met
const OUT: u8 = 1;
const WAS: u8 = 2;
const MET: u8 = 4;

pub struct Memo {
    pub flags: Vec<u8>,
    region: Vec<u32>,
    found: Vec<u32>,
    // how many of the names found were passed on to those that depend on them
    spread: usize,
}

impl Memo {
    pub fn new(names: usize) -> Memo {
        Memo { flags: vec![0; names], region: Vec::new(), found: Vec::new(), spread: 0 }
    }

    pub fn is_out(&self, n: u32) -> bool {
        self.flags[n as usize] & OUT != 0
    }

    fn meet(&mut self, n: u32) {
        let flags = &mut self.flags[n as usize];
        if *flags & MET == 0 {
            *flags = MET | if *flags & OUT != 0 { WAS } else { 0 };
            self.region.push(n);
        }
    }

    fn find(&mut self, t: u32) {
        let flags = &mut self.flags[t as usize];
        if *flags & OUT == 0 {
            *flags |= OUT;
            self.found.push(t);
        }
    }

    // returns how many names, first in the region, have a row on the seed, with the seed
    fn meet_region(&mut self, graph: &Graph, seed: u32) -> usize {
        self.region.clear();
        self.meet(seed);
        for row in graph.changes.on(seed) {
            self.meet(row.target);
        }
        for row in graph.created.on(seed) {
            self.meet(row.target);
        }
        let touching = self.region.len();
        let mut next = 1;
        while let Some(n) = self.region.get(next).copied() {
            for row in graph.changes.on(n) {
                self.meet(row.target);
            }
            next += 1;
        }
        touching
    }

    fn was_out(&self, n: u32) -> bool {
        self.flags[n as usize] & WAS != 0
    }

    // what has a reason, or a row on what is known to be out of date: outside of the region, or
    // found before
    fn look_at(&mut self, graph: &Graph, t: u32) {
        if !self.is_out(t) && graph.has_reason(t, |n| self.is_out(n)) {
            self.find(t);
            self.spread(graph);
        }
    }

    fn find_reasons(&mut self, graph: &Graph, touching: usize) {
        self.found.clear();
        self.spread = 0;
        for at in 0..self.region.len() {
            let t = self.region[at];
            if at < touching || self.was_out(t) {
                self.look_at(graph, t);
            }
        }
    }

    fn spread(&mut self, graph: &Graph) {
        while let Some(n) = self.found.get(self.spread).copied() {
            for row in graph.changes.on(n) {
                self.find(row.target);
            }
            self.spread += 1;
        }
    }

    // Searches the region of a name that has changed, and tells each target that came to be out of
    // date, or that no longer is.
    pub fn refresh(&mut self, graph: &Graph, seed: u32, mut tell: impl FnMut(u32, bool)) {
        let touching = self.meet_region(graph, seed);
        self.find_reasons(graph, touching);
        for n in &self.region {
            let flags = &mut self.flags[*n as usize];
            let (is_out, was_out) = (*flags & OUT != 0, *flags & WAS != 0);
            *flags &= OUT;
            if is_out != was_out {
                tell(*n, is_out);
            }
        }
    }
}
