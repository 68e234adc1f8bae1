// Histories in plain Rust, to measure against.
// Usage: memo replay FILE                    the verdict on a history, as `redodb replay` gives it
//        memo write MIX LINES NAMES          a history of a mix: plain, builds, queries or header
//        memo graph SOURCES ROUNDS ASKED     a history that builds a graph and asks about it in
//                                            rounds: all stays the same, or one source changes, or
//                                            each in turn changes and changes back
mod bits;
mod graph;
#[allow(dead_code)]
mod lines;
mod memo;
mod mixes;
mod names;
mod printing;
mod reading;
mod rounds;
mod rows;
#[path = "../sessions/sha1.rs"]
mod sha1;
mod store;
mod writing;

use mixes::Mix;
use printing::Printer;
use reading::History;
use rounds::Asked;
use std::io::{stdout, Write};
use store::Store;

// the verdict on a history, and the status
fn verdict_on(history: &History) -> (Vec<u8>, i32) {
    let mut store = Store::new(history.text, &history.digests, history.names.sorted());
    for (number, line) in (1..).zip(&history.lines) {
        let reply = store.call(line.session, line.command, &history.listed);
        if !store.is_same(reply, line.reply, &history.listed) {
            let text = format!("differs {number} ").into_bytes();
            let (names, digests) = (&history.names.texts, &history.digests);
            let mut printer = Printer { names, stamps: history.text, digests, text };
            printer.put_reply(reply, store.listed());
            printer.put("\n");
            return (printer.text, 1);
        }
    }
    (format!("same {}\n", history.lines.len()).into_bytes(), 0)
}

fn replay(file: &str) -> Result<i32, String> {
    let text = std::fs::read(file).map_err(|error| format!("{file}: {error}"))?;
    if text.len() > 1 << 30 {
        return Err(format!("{file}: too long"));
    }
    let read = History::read(&text);
    let history = read.map_err(|number| format!("{file}: line {number}: faulty"))?;
    let (verdict, status) = verdict_on(&history);
    stdout().write_all(&verdict).map_err(|error| error.to_string())?;
    Ok(status)
}

fn print((header, lines): (String, Vec<u8>)) -> Result<i32, String> {
    let mut out = stdout().lock();
    let written = out.write_all(header.as_bytes()).and_then(|()| out.write_all(&lines));
    written.map(|()| 0).map_err(|error| error.to_string())
}

fn mix_of(word: &str) -> Option<Mix> {
    Some(match word {
        "plain" => Mix::Plain,
        "builds" => Mix::Builds,
        "queries" => Mix::Queries,
        "header" => Mix::Header,
        _ => return None,
    })
}

fn asked_of(word: &str) -> Option<Asked> {
    Some(match word {
        "same" => Asked::Same,
        "one" => Asked::One,
        "each" => Asked::Each,
        _ => return None,
    })
}

fn made(words: [&str; 4]) -> Option<(String, Vec<u8>)> {
    match words {
        ["write", mix, lines, names] => {
            let names = names.parse().ok().filter(|names| (140..=65536).contains(names))?;
            Some(mixes::history_of(mix_of(mix)?, lines.parse().ok()?, names))
        }
        ["graph", sources, rounds, asked] => {
            let sources = sources.parse().ok().filter(|sources| (25..=30000).contains(sources))?;
            Some(rounds::history_of(sources, rounds.parse().ok()?, asked_of(asked)?))
        }
        _ => None,
    }
}

fn usage() -> String {
    let words = "memo replay FILE | write MIX LINES NAMES | graph SOURCES ROUNDS ASKED";
    format!("usage: {words}")
}

fn main() {
    let words: Vec<String> = std::env::args().skip(1).collect();
    let words: Vec<&str> = words.iter().map(String::as_str).collect();
    let done = match words[..] {
        ["replay", file] => replay(file),
        [a, b, c, d] => made([a, b, c, d]).ok_or_else(usage).and_then(print),
        _ => Err(usage()),
    };
    std::process::exit(done.unwrap_or_else(|error| {
        eprintln!("{error}");
        2
    }));
}
