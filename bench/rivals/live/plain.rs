// A live conversation in plain Rust, to measure against: it does what redodb-live does, with the
// same memo of what is out of date.
// Usage: plain [--log FILE [--sync] [--salvage] [--whole]]
// It keeps all lines of a log, as `--whole` asks for. It takes no `--compact` and no `--backup`.
#[path = "../memo/bits.rs"]
mod bits;
mod copying;
mod database;
#[path = "../memo/graph.rs"]
mod graph;
mod growing;
#[path = "../memo/lines.rs"]
#[allow(dead_code)]
mod lines;
mod log;
#[path = "../memo/memo.rs"]
mod memo;
#[path = "../memo/names.rs"]
#[allow(dead_code)]
mod names;
mod opening;
#[path = "../memo/printing.rs"]
#[allow(dead_code)]
mod printing;
mod questions;
mod reading;
#[path = "../memo/rows.rs"]
mod rows;
#[path = "../sessions/sha1.rs"]
mod sha1;
#[path = "../memo/store.rs"]
#[allow(dead_code)]
mod store;

use database::{Answers, Database};
use log::Log;
use std::io::{stderr, stdin, stdout, BufRead, BufReader, Read, Write};

// a line of which this many bytes were read is too long: five digits, a space, and 8,193 bytes
const MOST_BYTES: u64 = 8199;

#[derive(Default)]
struct Words {
    log: Option<String>,
    is_synced: bool,
    is_salvaged: bool,
    is_whole: bool,
}

fn words_of(given: impl Iterator<Item = String>) -> Option<Words> {
    let mut words = Words::default();
    let mut given = given;
    while let Some(word) = given.next() {
        let is_new = match word.as_str() {
            "--log" => words.log.replace(given.next()?).is_none(),
            "--sync" => !std::mem::replace(&mut words.is_synced, true),
            "--salvage" => !std::mem::replace(&mut words.is_salvaged, true),
            "--whole" => !std::mem::replace(&mut words.is_whole, true),
            _ => false,
        };
        if !is_new {
            return None;
        }
    }
    let needs_log = words.is_synced || words.is_salvaged || words.is_whole;
    (words.log.is_some() || !needs_log).then_some(words)
}

// Writes a line to standard error, at once. Ignores a failed write.
fn say(line: &str) {
    let _ = stderr().write_all(line.as_bytes());
}

// Writes the answers: first what is to be logged.
fn told(answers: &mut Answers, log: &mut Option<Log>, out: &mut impl Write) -> Result<(), String> {
    if let Some(log) = log {
        log.append(&answers.logged)?;
    }
    answers.logged.clear();
    if !answers.said.is_empty() {
        let written = out.write_all(&answers.said).and_then(|()| out.flush());
        written.map_err(|_| "write".to_string())?;
        answers.said.clear();
    }
    Ok(())
}

// The next line without its LF, of a line that is too long the beginning; none at the end.
fn next_line(input: &mut impl BufRead, line: &mut Vec<u8>) -> std::io::Result<bool> {
    line.clear();
    input.take(MOST_BYTES).read_until(b'\n', line)?;
    if line.last() == Some(&b'\n') {
        line.pop();
        return Ok(true);
    }
    if (line.len() as u64) < MOST_BYTES {
        return Ok(false);
    }
    loop {
        let rest = input.fill_buf()?;
        let end = rest.iter().position(|byte| *byte == b'\n');
        let count = end.map_or(rest.len(), |end| end + 1);
        input.consume(count);
        if count == 0 || end.is_some() {
            return Ok(count > 0);
        }
    }
}

fn talk(mut database: Database, mut log: Option<Log>, lines: u64) -> Result<(), String> {
    let mut input = BufReader::with_capacity(1 << 16, stdin().lock());
    let mut out = stdout().lock();
    let mut answers = Answers::default();
    let mut line = Vec::new();
    answers.said = format!("redodb-live 0.3.0 restored {lines}\n").into_bytes();
    loop {
        // what was answered leaves before more is waited for
        if answers.is_long() || !input.buffer().contains(&b'\n') {
            told(&mut answers, &mut log, &mut out)?;
        }
        match next_line(&mut input, &mut line) {
            Ok(true) => database.answer(&line, &mut answers),
            Ok(false) => return told(&mut answers, &mut log, &mut out),
            Err(_) => return Err("-: read".to_string()),
        }
    }
}

fn run() -> Result<(), String> {
    let given: Option<Vec<String>> =
        std::env::args_os().skip(1).map(|word| word.into_string().ok()).collect();
    let words = given.and_then(|given| words_of(given.into_iter())).ok_or("usage")?;
    let name = match words.log {
        Some(name) => name,
        None => return talk(Database::new(), None, 0),
    };
    let mut log = Log::open(&name, words.is_synced)?;
    let (database, lines) = log.restored(words.is_salvaged)?;
    talk(database, Some(log), lines)
}

fn main() {
    if let Err(fault) = run() {
        say(&format!("redodb-live: {fault}\n"));
        std::process::exit(2);
    }
}
