//! Starts `/bin/true` again and again, in two ways, and prints how many starts a second there were.

use std::error::Error;
use std::fs::File;
use std::os::unix::io::AsRawFd;
use std::process::Command;
use std::time::Instant;

use redo_scripts::processes::{Processes, Start};
use redo_scripts::signals::Signals;
use redo_scripts::surroundings::{RunVariables, ScriptVariables, Surroundings};
use redo_scripts::system;

const STARTS: u32 = 2000;
const PROGRAM: &str = "/bin/true";

fn main() -> Result<(), Box<dyn Error>> {
    let began = Instant::now();
    start_scripts()?;
    report("as scripts", began);
    let began = Instant::now();
    start_commands()?;
    report("std::process::Command", began);
    Ok(())
}

fn start_scripts() -> Result<(), Box<dyn Error>> {
    let asker = Surroundings::of_process();
    let run = RunVariables::default();
    let mut signals = Signals::new()?;
    let mut processes = Processes::new()?;
    let nothing = File::create("/dev/null")?;
    for _ in 0..STARTS {
        let start = Start {
            words: &[PROGRAM.into()],
            folder: b"/",
            environment: &run.environment(&asker, &ScriptVariables::default()),
            umask: asker.umask,
            limits: &asker.limits,
            output: nothing.as_raw_fd(),
            errors: nothing.as_raw_fd(),
        };
        processes.start(&start).map_err(|error| error.cause)?;
        wait(&mut processes, &mut signals)?;
    }
    Ok(())
}

fn wait(processes: &mut Processes, signals: &mut Signals) -> Result<(), Box<dyn Error>> {
    while processes.count() > 0 {
        system::wait_readable(&[signals.as_raw_fd()], None)?;
        signals.on_readable();
        processes.ended()?;
    }
    Ok(())
}

fn start_commands() -> Result<(), Box<dyn Error>> {
    for _ in 0..STARTS {
        Command::new(PROGRAM).current_dir("/").status()?;
    }
    Ok(())
}

fn report(what: &str, began: Instant) {
    println!(
        "{what}: {:.0} starts a second",
        f64::from(STARTS) / began.elapsed().as_secs_f64()
    );
}
