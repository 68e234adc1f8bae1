//! Drives redo-core by random traces, and checks each.
#![forbid(unsafe_code)]
use redo_explorer::counts::Counts;
use redo_explorer::explore::explore;
use redo_explorer::history::history;
use redo_explorer::world::World;
use std::path::Path;
use std::process::ExitCode;

const USAGE: &str = "usage: redo-explorer [--large] [--first] TRACES [FIRST-SEED]
       redo-explorer [--large] show SEED
       redo-explorer [--large] histories DIR FIRST COUNT
With --first it ends with the first trace that it refutes, else with the tenth.";

/// So many traces are refuted before the explorer ends.
const MOST_REFUTED: u64 = 10;

fn main() -> ExitCode {
    let words: Vec<String> = std::env::args().skip(1).collect();
    let (options, words): (Vec<&str>, Vec<&str>) =
        words.iter().map(String::as_str).partition(|word| word.starts_with("--"));
    let is_large = options.contains(&"--large");
    let most = if options.contains(&"--first") { 1 } else { MOST_REFUTED };
    let are_known = options.iter().all(|option| ["--large", "--first"].contains(option));
    let status = if are_known { done(&words, is_large, most) } else { None };
    status.unwrap_or_else(|| {
        eprintln!("{USAGE}");
        ExitCode::from(2)
    })
}

/// Does what the words say. None if they say nothing.
fn done(words: &[&str], is_large: bool, most: u64) -> Option<ExitCode> {
    match words {
        ["show", seed] => Some(show(seed.parse().ok()?, is_large)),
        ["histories", folder, first, count] => {
            Some(write_histories(folder, first.parse().ok()?, count.parse().ok()?, is_large))
        }
        [traces] => Some(explore_all(0, traces.parse().ok()?, is_large, most)),
        [traces, first] => {
            Some(explore_all(first.parse().ok()?, traces.parse().ok()?, is_large, most))
        }
        _ => None,
    }
}

fn explore_all(first: u64, traces: u64, is_large: bool, most: u64) -> ExitCode {
    std::panic::set_hook(Box::new(|_| {}));
    let mut sum = Counts::default();
    let mut failed = 0;
    for seed in first..first.saturating_add(traces) {
        let fault = fault_of_trace(seed, is_large, &mut sum);
        if let Some(text) = fault {
            failed += 1;
            println!("seed {seed}: {text}");
        }
        if failed == most {
            break;
        }
    }
    println!("{sum}");
    println!("{} passed, {failed} failed", sum.traces - failed);
    ExitCode::from(u8::from(failed > 0))
}

/// What is wrong in a trace. A panic is a fault of it, too.
fn fault_of_trace(seed: u64, is_large: bool, sum: &mut Counts) -> Option<String> {
    let explored = std::panic::catch_unwind(|| {
        let mut world = World::new(seed, is_large, false);
        explore(&mut world);
        (world.counts, world.monitor.violation)
    });
    match explored {
        Ok((counts, violation)) => {
            sum.add(&counts);
            violation
        }
        Err(cause) => {
            sum.traces += 1;
            let text = cause.downcast_ref::<String>().cloned();
            Some(format!("it panics: {}", text.unwrap_or_default()))
        }
    }
}

fn show(seed: u64, is_large: bool) -> ExitCode {
    let mut world = World::new(seed, is_large, false);
    world.trace = Some(Vec::new());
    println!("{:?}", world.setup);
    world.files.iter().for_each(|(name, file)| println!("{name:?}: {file:?}"));
    explore(&mut world);
    println!("{}", world.trace.take().unwrap_or_default().join("\n"));
    world.print_marks();
    world.print_scratch();
    println!("{:?}", world.monitor.violation);
    ExitCode::from(u8::from(world.monitor.violation.is_some()))
}

fn write_histories(folder: &str, first: u64, count: u64, is_large: bool) -> ExitCode {
    let mut failed = 0;
    for seed in first..first.saturating_add(count) {
        let mut world = World::new(seed, is_large, true);
        explore(&mut world);
        let path = Path::new(folder).join(format!("{seed}.history"));
        if let Err(cause) = std::fs::write(&path, history(world.machine.database())) {
            eprintln!("redo-explorer: {}: {cause}", path.display());
            return ExitCode::from(2);
        }
        failed += u64::from(world.monitor.violation.is_some());
    }
    println!("{} passed, {failed} failed", count - failed);
    ExitCode::from(u8::from(failed > 0))
}
