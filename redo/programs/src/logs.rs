//! redo-log: the logs of builds, which are files of `.redo`.

use std::cell::RefCell;
use std::env;
use std::io;
use std::os::unix::ffi::OsStringExt;
use std::os::unix::io::RawFd;
use std::thread;
use std::time::Duration;

use redo_files::{links, names};
use redo_scripts::stored::{LogOptions, More, StoredLogs};
use redo_scripts::terminal::{Style, Terminal};
use redo_wire::options::{taken_out, targets_of};
use redo_wire::{Program, ToProgram, ToServer};

use crate::asking::{call_of_process, Patience, Sign};
use crate::failure::Failure;
use crate::reach::Tree;

const OUTPUT: RawFd = 1;
const TICK: Duration = Duration::from_millis(100);
const WORDS: [&[u8]; 11] = [
    b"-f",
    b"--follow",
    b"-n",
    b"--no-recurse",
    b"-r",
    b"--recursive",
    b"-u",
    b"--unchanged",
    b"--details",
    b"--no-details",
    b"--no-color",
];

/// Prints the logs of targets. Fails at the first that has none.
pub fn call(words: &[Vec<u8>]) -> Result<u8, Failure> {
    let (options, rest) = taken_out(words, &WORDS);
    let targets = targets_of(&rest)?;
    if targets.is_empty() {
        return Err(Failure::Usage(b"it takes a target".to_vec()));
    }
    let nothing = || Failure::Usage(b"nothing was ever built here".to_vec());
    let tree = Tree::found()?.ok_or_else(nothing)?;
    let here = links::resolved(b".").map_err(|cause| Failure::System { path: None, cause })?;
    let style = style(&options);
    let terminal = Terminal::new(Box::new(io::stdout()), style);
    let options = log_options(&options, style);
    let failure = RefCell::new(None);
    let mut logs = StoredLogs::new(terminal, tree.home(), &here, options);
    logs.set_needs(Box::new(|name| {
        needs(&tree, name).unwrap_or_else(|cause| {
            failure.borrow_mut().get_or_insert(cause);
            Vec::new()
        })
    }));
    targets
        .iter()
        .try_for_each(|target| print(&mut logs, target, &tree))?;
    drop(logs);
    failure.into_inner().map_or(Ok(0), Err)
}

/// The targets that a target needed when it was last built: the server knows.
fn needs(tree: &Tree, name: &[u8]) -> Result<Vec<Vec<u8>>, Failure> {
    let path = names::path_of(name, tree.top())?;
    let call = call_of_process(Program::Log, vec![path], None, None)?;
    let mut patience = Patience::new(tree.top(), Sign::Silence);
    let (mut link, mut message) = tree.ask(&ToServer::Call(Box::new(call)), &mut patience)?;
    let mut told = Vec::new();
    loop {
        match message {
            ToProgram::Output(bytes) => told.extend(bytes),
            ToProgram::End { status: 0 } => break,
            ToProgram::Error(text) => return Err(Failure::Text(text)),
            _ => return Err(Failure::Ended),
        }
        message = patience.next_message(&mut link)?.ok_or(Failure::Ended)?;
    }
    let names = told.split(|byte| *byte == b'\n');
    Ok(names
        .filter(|name| !name.is_empty())
        .map(<[u8]>::to_vec)
        .collect())
}

fn print(logs: &mut StoredLogs<'_>, target: &[u8], tree: &Tree) -> Result<(), Failure> {
    if !logs.begin(&names::name_of(target, tree.top())?)? {
        return Err(Failure::Text([target, b" has no log"].concat()));
    }
    while logs.pump() == More::Later {
        thread::sleep(TICK);
    }
    Ok(())
}

/// Of words that say the opposite, the last one counts.
fn log_options(words: &[Vec<u8>], style: Style) -> LogOptions {
    let about_others = |word: &&Vec<u8>| {
        matches!(
            word.as_slice(),
            b"-n" | b"--no-recurse" | b"-r" | b"--recursive"
        )
    };
    let recurses = words.iter().rev().find(about_others);
    let mut details = words.iter().rev();
    let details = details.find(|word| word.ends_with(b"-details"));
    let has = |short: &[u8], long: &[u8]| words.iter().any(|word| word == short || word == long);
    LogOptions {
        recurses: recurses.map_or(true, |word| word == b"-r" || word == b"--recursive"),
        shows_unchanged: has(b"-u", b"--unchanged"),
        shows_details: details.map_or(true, |word| word == b"--details"),
        follows: has(b"-f", b"--follow"),
        has_colours: style.has_colours,
    }
}

fn style(words: &[Vec<u8>]) -> Style {
    let variable = |name: &str| env::var_os(name).map(OsStringExt::into_vec);
    let (no_color, term) = (variable("NO_COLOR"), variable("TERM"));
    let style = Style::of(OUTPUT, no_color.as_deref(), term.as_deref());
    let is_plain = words.iter().any(|word| word == b"--no-color");
    Style {
        has_colours: style.has_colours && !is_plain,
        shows_progress: false,
    }
}

#[cfg(test)]
mod tests {
    use super::*;

    fn read(text: &str) -> LogOptions {
        let words = text.split(' ').map(|word| word.as_bytes().to_vec());
        log_options(&words.collect::<Vec<_>>(), Style::default())
    }

    #[test]
    fn details_are_shown_unless_the_last_word_says_otherwise() {
        assert!(read("-u").shows_details && read("-u").shows_unchanged);
        assert!(!read("--no-details").shows_details && !read("-f").shows_unchanged);
        assert!(read("--no-details --unchanged --details").shows_details);
    }

    #[test]
    fn the_last_word_about_other_logs_counts() {
        let read = |text: &str| {
            let options = read(text);
            (options.recurses, options.follows)
        };
        assert_eq!(read("--no-color"), (true, false));
        assert_eq!(read("-n -f"), (false, true));
        assert_eq!(read("-n --recursive"), (true, false));
        assert_eq!(read("-r --no-recurse --follow"), (false, true));
    }
}
