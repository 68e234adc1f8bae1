//! A trace: a random part, and last runs without edits.

use crate::world::World;
use redo_core::{Name, Stamp};

const MOST_STEPS: usize = 20_000;
const MOST_LAST_RUNS: usize = 6;

/// Drives a world to its end, or to its first violation.
pub fn explore(world: &mut World) {
    world.counts.traces = 1;
    act(world, world.setup.steps);
    world.frozen = true;
    drain(world);
    let mut runs = 0..MOST_LAST_RUNS;
    let mut settled = 0;
    while settled < 2 && runs.next().is_some() && world.monitor.violation.is_none() {
        let is_settled = last_run(world);
        settled += usize::from(is_settled);
        world.monitor.is_settled = is_settled;
    }
    world.counts.unsettled += u64::from(settled < 2);
}

/// Takes as many steps, or as many as there are. Returns how many these were.
fn act(world: &mut World, most: usize) -> usize {
    let mut steps = 0;
    while world.monitor.violation.is_none() && steps < most && world.act() {
        steps += 1;
    }
    steps
}

/// A run for all targets. If it made no `.do` file, or another one, all is as from scratch.
fn last_run(world: &mut World) -> bool {
    let rules = rules(world);
    let is_known = world.monitor.unseen.is_empty();
    let all: Vec<Name> = (0..world.setup.targets as u32).map(Name).collect();
    world.open(Some(all));
    drain(world);
    let is_settled = rules == self::rules(world);
    world.counts.unseen += u64::from(!is_known);
    if is_settled && is_known && world.monitor.violation.is_none() {
        world.compare();
    }
    is_settled
}

/// The `.do` files that there are.
fn rules(world: &World) -> Vec<Option<Stamp>> {
    let all = (0..world.setup.names() as u32).map(Name);
    let rules = all.filter(|name| (name.0 as usize) > world.setup.files());
    rules.map(|name| world.stamp(name)).collect()
}

/// Lets all that goes on end, without edits and kills.
fn drain(world: &mut World) {
    if act(world, MOST_STEPS) == MOST_STEPS {
        world.fault("(d) it goes on for ever".to_string());
    }
    let waits = world.users.len() + world.scripts.len() + world.machine.requests().len();
    if waits + world.machine.tasks().len() > 0 {
        world.fault(format!("(d) all is still, but {waits} wait"));
    }
}
