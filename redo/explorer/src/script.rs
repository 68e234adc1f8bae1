//! Scripts: functions of their text and of what they have read.
use crate::random::{mix, Random};
use crate::setup::Setup;
use redo_core::{Digest, Name, RequestId, RunId, Stamp, Want};
use std::collections::{BTreeSet, VecDeque};

/// A file: equal contents have equal stamps.
#[derive(Clone, Copy, PartialEq, Eq, Debug)]
pub struct File {
    pub content: u64,
    pub stamp: Stamp,
    /// When it was changed.
    pub changed: u64,
}

/// What a script does next.
#[derive(Clone, Debug)]
pub enum Op {
    IfChange { names: Vec<Name>, may_fail: bool, background: bool, early: bool },
    IfCreate(Name),
    Always,
    Stamp,
    Fail,
    Redo(Vec<Name>),
    End,
}

/// A script that runs.
#[derive(Clone, Debug)]
pub struct Script {
    pub run: RunId,
    pub target: Name,
    pub began: u64,
    pub seed: u64,
    pub at: u32,
    /// All that it has read.
    pub read: u64,
    pub before: Option<File>,
    pub blocked: Option<RequestId>,
    pub asked: Vec<Name>,
    pub may_fail: bool,
    /// What it reads next.
    pub reads: VecDeque<Name>,
    /// What it has asked for.
    pub touched: BTreeSet<Name>,
    /// Targets of these that were edited since, and that the machine wasn't told of.
    pub unseen: BTreeSet<Name>,
    /// What it reads, and asks for afterwards.
    pub early: Option<Vec<Name>>,
    pub digest: Option<Digest>,
    /// The script has ended, and the machine isn't told yet.
    pub ended: Option<(bool, Option<Stamp>)>,
}

/// What stands for a failed request in what a script has read.
pub const FAILED: u64 = 0xFA11;

/// Whether a script fails by itself that has read this.
pub fn fails(read: u64) -> bool {
    read % 3 == 1
}

/// What a script wants of the names that it asks for.
pub fn want(is_redo: bool) -> Want {
    if is_redo {
        Want::Built
    } else {
        Want::UpToDate
    }
}

/// What the script of a target does at a place: a function of its text and of what it has read.
pub fn op(setup: &Setup, target: Name, seed: u64, at: u32, read: u64) -> Op {
    let by = if seed & 1 == 0 { read } else { 0 };
    let mut random = Random(mix(mix(seed, u64::from(at) + 1), by));
    let length = 1 + (seed >> 8) % 5;
    if u64::from(at) >= length {
        return Op::End;
    }
    let kind = random.below(22);
    let background = kind == 8 || kind == 9;
    match kind {
        0 => Op::IfCreate(setup.ghost()),
        1 => Op::Always,
        2 | 3 if setup.digests => Op::Stamp,
        4 if random.chance(40) => Op::Fail,
        5 => Op::Redo(names(setup, target, &mut random)),
        20 | 21 => Op::IfChange {
            names: early_names(setup, target, &mut random),
            may_fail: false,
            background: false,
            early: true,
        },
        _ => Op::IfChange {
            names: names(setup, target, &mut random),
            may_fail: (6..=9).contains(&kind),
            background: background && setup.background,
            early: false,
        },
    }
}

/// Names for a script to ask for: of later ones, but for some that may close a ring.
fn names(setup: &Setup, target: Name, random: &mut Random) -> Vec<Name> {
    let all = setup.files();
    let place = setup.made_by(target).unwrap_or(target).0 as usize;
    let mut names: Vec<Name> = Vec::new();
    for _ in 0..1 + random.below(3) {
        let ring = random.chance(setup.rings);
        let low = if ring { 0 } else { (place + 1).min(all - 1) };
        let file = Name((low + random.below(all - low)) as u32);
        let has_rule = setup.built_rules && (file.0 as usize) < setup.targets;
        let name = if has_rule && random.chance(8) { setup.own_do(file) } else { file };
        let may_be_itself = ring && random.chance(5);
        if !names.contains(&name) && (name != target || may_be_itself) {
            names.push(name);
        }
    }
    names
}

/// Sources for a script to read before it asks for them, and what it asks for with them.
fn early_names(setup: &Setup, target: Name, random: &mut Random) -> Vec<Name> {
    let mut all = sources(setup, random);
    let more = if random.chance(50) { names(setup, target, random) } else { Vec::new() };
    all.extend(more.into_iter().filter(|name| (name.0 as usize) < setup.targets));
    all
}

fn sources(setup: &Setup, random: &mut Random) -> Vec<Name> {
    let source = |random: &mut Random| Name((setup.targets + random.below(setup.sources)) as u32);
    let first = source(random);
    let second = source(random);
    if first == second {
        vec![first]
    } else {
        vec![first, second]
    }
}
