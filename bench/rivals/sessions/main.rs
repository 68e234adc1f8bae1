// Sessions side by side in plain Rust, to measure against: one database under one Mutex, and a thread for each session.
// It reads session files, does their commands and the closing ones, and prints the run text, as the program does. The
// database is that of bench/replay, with the same memo; with --search it has none, and searches.
// Usage: rival [--search] FILE...
#[path = "../memo/bits.rs"]
mod bits;
#[path = "../memo/graph.rs"]
mod graph;
#[path = "../memo/lines.rs"]
#[allow(dead_code)]
mod lines;
#[path = "../memo/memo.rs"]
mod memo;
#[path = "../memo/names.rs"]
mod names;
#[path = "../memo/printing.rs"]
mod printing;
mod reading;
#[path = "../memo/rows.rs"]
#[allow(dead_code)]
mod rows;
mod run_text;
mod search;
mod sessions;
mod sha1;
#[path = "../memo/store.rs"]
#[allow(dead_code)]
mod store;

use reading::{Reader, Script};
use run_text::RunText;
use search::Search;
use sessions::done_by;
use std::fs::File;
use std::io::Read;
use std::ops::Range;
use store::Store;

// the texts of all files, one after the other, and where each is
fn texts_of(files: &[String]) -> Result<(Vec<u8>, Vec<Range<usize>>), String> {
    let mut text = Vec::new();
    let mut places = Vec::new();
    for file in files {
        let from = text.len();
        let read = File::open(file).and_then(|mut file| file.read_to_end(&mut text));
        read.map_err(|error| format!("{file}: {error}"))?;
        places.push(from..text.len());
    }
    Ok((text, places))
}

fn run(files: &[String], has_memo: bool) -> Result<(), String> {
    if !(1..=64).contains(&files.len()) {
        return Err("usage: rival [--search] FILE...".to_string());
    }
    let (text, places) = texts_of(files)?;
    let mut reader = Reader::new(&text);
    let mut scripts: Vec<Script> = Vec::new();
    for (file, place) in files.iter().zip(places) {
        scripts.push(reader.script(place).ok_or(format!("{file}: a faulty line"))?);
    }
    let sorted = reader.names.sorted();
    let done = if has_memo {
        done_by(Store::new(&text, &reader.digests, sorted), &reader, &scripts)
    } else {
        done_by(Search::new(&reader.digests, &sorted), &reader, &scripts)
    };
    let printed = RunText::new(&reader).put(&done, &scripts);
    printed.map_err(|error| error.to_string())
}

fn main() -> Result<(), String> {
    let words: Vec<String> = std::env::args().skip(1).collect();
    match words.split_first() {
        Some((word, files)) if word == "--search" => run(files, false),
        _ => run(&words, true),
    }
}
