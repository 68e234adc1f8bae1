//! Measures how many commands a second the machine can give the database.
//!
//! Usage: REDODB_LIVE=PROGRAM commands COUNT, in a folder where it may make a file `commands.log`.

use std::env;
use std::error::Error;
use std::os::unix::ffi::OsStringExt;
use std::time::Instant;

use redo_core::{Command, Database, Reply, RunId, Stamp, Subject};
use redo_files::clock::Clock;
use redo_files::contents::Contents;
use redo_files::Folder;
use redo_server::known::Known;
use redo_server::marks::Keeping;
use redo_server::program::Program;
use redo_server::store::Store;
use redo_server::system::Poll;

const RUN: RunId = RunId(1);

fn main() -> Result<(), Box<dyn Error>> {
    let count: u32 = env::args().nth(1).ok_or("how many commands?")?.parse()?;
    let live = env::var_os("REDODB_LIVE").ok_or("REDODB_LIVE isn't set")?;
    let contents = Contents::new(Folder::open(b".")?, Clock::new(b"none"), b"boot");
    let mut store = Store::new(Known::new(contents));
    let program = Program::start(&live.into_vec(), b"commands.log", Keeping::Whole)?;
    store.live.begin(program, &Poll::new()?)?;
    store.live.ask_now(b"", 1, &mut Vec::new())?; // the greeting
    let name = store.known.intern(b"target");
    let began = Instant::now();
    for number in 0..count / 3 {
        let stamp = Stamp(number % 2);
        let told = [
            Command::Lock(name),
            Command::File(Subject::File(name), stamp),
            Command::Unlock(name),
        ];
        let done = told.iter().all(|told| store.obey(RUN, told) == Reply::Done);
        if !done {
            return Err("a command wasn't done".into());
        }
    }
    let passed = began.elapsed();
    println!(
        "{:.0} commands a second",
        f64::from(count) / passed.as_secs_f64()
    );
    Ok(())
}
