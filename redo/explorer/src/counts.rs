//! What happened in traces.
use std::fmt::{Display, Formatter, Result};

#[derive(Default, Debug, Clone)]
pub struct Counts {
    pub traces: u64,
    pub events: u64,
    pub chores: u64,
    pub most_chores: u64,
    pub scripts: u64,
    pub rings: u64,
    pub kills: u64,
    pub left: u64,
    pub skipped: u64,
    pub doubts: u64,
    pub late: u64,
    pub rules: u64,
    pub overwritten: u64,
    pub compared: u64,
    pub tainted: u64,
    pub unsettled: u64,
    pub unseen: u64,
    pub strange: u64,
}

impl Counts {
    pub fn add(&mut self, other: &Counts) {
        self.traces += other.traces;
        self.events += other.events;
        self.chores += other.chores;
        self.most_chores = self.most_chores.max(other.most_chores);
        self.scripts += other.scripts;
        self.rings += other.rings;
        self.kills += other.kills;
        self.left += other.left;
        self.skipped += other.skipped;
        self.doubts += other.doubts;
        self.late += other.late;
        self.rules += other.rules;
        self.overwritten += other.overwritten;
        self.compared += other.compared;
        self.tainted += other.tainted;
        self.unsettled += other.unsettled;
        self.unseen += other.unseen;
        self.strange += other.strange;
    }
}

impl Display for Counts {
    fn fmt(&self, to: &mut Formatter<'_>) -> Result {
        writeln!(to, "{} traces, {} events, {} chores", self.traces, self.events, self.chores)?;
        writeln!(to, "{} chores for one event at most", self.most_chores)?;
        writeln!(to, "{} scripts, {} rings, {} kills", self.scripts, self.rings, self.kills)?;
        writeln!(to, "{} guesses given up, {} doubtful targets", self.skipped, self.doubts)?;
        writeln!(to, "{} late looks, {} rules built first", self.late, self.rules)?;
        writeln!(to, "{} warnings, {} overwritten", self.left, self.overwritten)?;
        writeln!(to, "{} targets compared, {} of them on rings", self.compared, self.tainted)?;
        writeln!(to, "{} commands of strangers", self.strange)?;
        writeln!(to, "{} traces whose .do files never settled", self.unsettled)?;
        write!(to, "{} last runs after an edit that nobody saw", self.unseen)
    }
}
