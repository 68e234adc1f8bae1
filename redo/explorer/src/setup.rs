//! What a trace may contain, and which names there are.
use crate::random::{mix, Random};
use redo_core::Name;

/// The size of a trace, and what may happen in it.
#[derive(Clone, Copy, Debug)]
pub struct Setup {
    pub targets: usize,
    pub sources: usize,
    pub runs: usize,
    pub slots: u32,
    /// How many needs of a hundred may close a ring.
    pub rings: u64,
    pub edits: u64,
    pub kills: bool,
    pub background: bool,
    pub digests: bool,
    /// Whether `.do` files may be targets.
    pub built_rules: bool,
    /// Whether somebody uses the database who is no run.
    pub stranger: bool,
    pub steps: usize,
}

impl Setup {
    pub fn draw(random: &mut Random, is_large: bool) -> Setup {
        let (targets, sources, runs, slots) =
            if is_large { (6 + random.below(15), 4, 6, 8) } else { (2 + random.below(5), 3, 3, 4) };
        Setup {
            targets,
            sources: 1 + random.below(sources),
            runs: 1 + random.below(runs),
            slots: 1 + random.below(slots) as u32,
            rings: random.pick(if is_large { &[0, 0, 3, 20] } else { &[0, 0, 10, 40] }),
            edits: random.pick(if is_large { &[0, 2, 8, 8] } else { &[0, 5, 15, 30] }),
            kills: random.chance(if is_large { 30 } else { 40 }),
            background: random.chance(40),
            digests: random.chance(50),
            built_rules: random.chance(50),
            stranger: Random(mix(random.0, 7)).chance(30),
            steps: if is_large { 300 + random.below(1500) } else { 60 + random.below(300) },
        }
    }

    /// Targets and sources: the names that scripts ask for.
    pub fn files(&self) -> usize {
        self.targets + self.sources
    }

    /// A name that scripts only ask about by `redo-ifcreate`.
    pub fn ghost(&self) -> Name {
        Name(self.files() as u32)
    }

    /// The `.do` file of a target or a source alone.
    pub fn own_do(&self, name: Name) -> Name {
        Name(self.files() as u32 + 1 + name.0)
    }

    /// The `.do` file of all targets and sources.
    pub fn default_do(&self) -> Name {
        Name(2 * self.files() as u32 + 1)
    }

    /// The `.do` file of all `.do` files of targets.
    pub fn rule_do(&self) -> Name {
        Name(2 * self.files() as u32 + 2)
    }

    pub fn names(&self) -> usize {
        2 * self.files() + 3
    }

    /// The target or source that a `.do` file is for.
    pub fn made_by(&self, do_file: Name) -> Option<Name> {
        let first = self.own_do(Name(0)).0;
        (first..self.default_do().0).contains(&do_file.0).then(|| Name(do_file.0 - first))
    }

    /// The `.do` files that would make a name, the first one wins.
    pub fn candidates(&self, name: Name) -> Vec<Name> {
        if (name.0 as usize) < self.files() {
            vec![self.own_do(name), self.default_do()]
        } else if self.made_by(name).is_some() {
            vec![self.rule_do()]
        } else {
            Vec::new()
        }
    }
}
