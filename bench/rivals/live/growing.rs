// One more name in all tables.
use crate::graph::UNKNOWN;
use crate::rows::{Links, Mark};
use crate::store::Store;

impl Store<'_> {
    // The new name is the last in the store's order, which is that of the numbers.
    pub fn grow(&mut self) {
        let number = self.sorted.len() as u32;
        self.graph.cells.push(UNKNOWN);
        self.graph.marks.push(Mark::Absent);
        self.graph.changes.0.push(Links::none());
        self.graph.created.0.push(Links::none());
        self.memo.flags.push(0);
        self.ranks.push(number);
        self.sorted.push(number);
        self.noted.push((0, 0));
        for bits in [&mut self.files, &mut self.targets, &mut self.out] {
            bits.0.resize(number as usize / 64 + 1, 0);
        }
    }
}
