//! A log that redodb-live compacts when a server starts it.

mod common;

use std::fs::{self, File};
use std::io::Read;
use std::os::unix::net::UnixStream;
use std::thread;
use std::time::{Duration, Instant};

use common::Tree;

/// The length of a log that may be compacted.
const LONG: u64 = 5 << 20;

/// Plays redodb-live: it notes its words and what it is told, and knows of one target, `t`. If
/// there is a file `compact`, and its words allow that, it puts a dump in the place of the log, and
/// goes no further.
const DATABASE: &str = r#"#!/bin/sh
echo "$*" >>words
if [ -e compact ] && [ "${*#*--whole}" = "$*" ]; then
    rm compact
    sum=0123456789012345678901234567890123456789
    printf 'redodb-log 2\nstate 1 16 %s\nt 1 built 1 = -\n' $sum >"$2.new"
    mv "$2.new" "$2"
    : >compacted
    read -r line
    exit
fi
echo 'redodb-live 0.3.0 restored 0'
while read -r line; do
    echo "$line" >>told
    case $line in
        *' names') echo "$line => 1 t 1 built 1 1 -" ;;
        *' lock '*) echo "$line => granted 1" ;;
        *) echo "$line => ok" ;;
    esac
done
"#;

fn wait_until(holds: impl Fn() -> bool) {
    let end = Instant::now() + Duration::from_secs(20);
    while !holds() {
        assert!(Instant::now() < end);
        thread::sleep(Duration::from_millis(2));
    }
}

/// Waits until clients are served, and returns what the database was told, but for questions and
/// the ends of sessions.
fn told(tree: &Tree) -> Vec<String> {
    let mut socket = UnixStream::connect(tree.at(".redo/server/socket")).unwrap();
    socket.read_exact(&mut [0; 8]).unwrap();
    let lines = tree.read("told");
    assert!(lines.contains(" names\n"), "{lines}");
    let commands = lines.lines().map(|line| line.split_once(' ').unwrap().1);
    let commands = commands.filter(|command| !["names", "end"].contains(command));
    commands.map(str::to_owned).collect()
}

/// A tree with a target that was edited, and another one that only a build log knows. Its server
/// runs, and has a long log.
fn tree() -> Tree {
    let mut tree = Tree::new();
    tree.write("t", "edited");
    tree.write("other", "");
    tree.write(".redo/logs/other", "\x1etarget other 1\n");
    tree.restart_with("-TERM", DATABASE);
    told(&tree);
    let log = File::options().write(true).open(tree.at(".redo/log"));
    log.unwrap().set_len(LONG).unwrap();
    tree
}

/// Ends the server by a signal. The next one is killed by another one, after the database has
/// compacted the log, and returns what that of the third one is told.
fn told_after_kill(tree: &mut Tree, signal: &str) -> Vec<String> {
    tree.write("compact", "");
    tree.restart_with(signal, DATABASE);
    wait_until(|| tree.at("compacted").exists());
    assert!(fs::metadata(tree.at(".redo/log")).unwrap().len() < LONG);
    tree.remove("told");
    tree.restart_with("-KILL", DATABASE);
    told(tree)
}

#[test]
fn a_kill_after_the_compacting_leaves_the_whole_log() {
    for signal in ["-TERM", "-KILL"] {
        let mut tree = tree();
        assert!(told_after_kill(&mut tree, signal).is_empty(), "{signal}");
    }
}

#[test]
fn another_kill_leaves_it_so() {
    for signal in ["-TERM", "-KILL"] {
        let mut tree = tree();
        told_after_kill(&mut tree, signal);
        tree.remove("told");
        tree.restart_with("-KILL", DATABASE);
        assert!(told(&tree).is_empty(), "{signal}");
        tree.remove("told");
        tree.restart_with("-TERM", DATABASE);
        assert!(told(&tree).is_empty(), "{signal}");
    }
}

#[test]
fn another_log_in_its_place_is_found() {
    for (signal, wanted) in [
        ("-TERM", vec![]), // the target is taken for edited, as it is
        ("-KILL", vec!["lock t", "start t", "failed t", "unlock t"]),
    ] {
        let mut tree = tree();
        tree.write("compact", "");
        tree.write(".redo/backup", "");
        tree.restart_with(signal, DATABASE);
        wait_until(|| tree.at("compacted").exists());
        fs::copy(tree.at(".redo/log"), tree.at(".redo/backup")).unwrap();
        fs::rename(tree.at(".redo/backup"), tree.at(".redo/log")).unwrap();
        tree.remove("told");
        tree.restart_with("-KILL", DATABASE);
        let told = told(&tree);
        let of_target: Vec<&String> = told.iter().filter(|line| line.ends_with(" t")).collect();
        assert_eq!(of_target, wanted);
        assert!(told.contains(&"lock other".to_owned()), "{told:?}");
    }
}

#[test]
fn a_log_is_compacted_only_if_that_is_marked() {
    let mut tree = tree();
    fs::create_dir(tree.at(".redo/log.new")).unwrap();
    tree.restart_with("-TERM", DATABASE);
    told(&tree);
    fs::remove_dir(tree.at(".redo/log.new")).unwrap();
    tree.restart_with("-TERM", DATABASE);
    wait_until(|| tree.read("words").lines().count() == 3);
    let words = tree.read("words");
    let is_whole: Vec<bool> = words
        .lines()
        .map(|line| line.ends_with(" --whole"))
        .collect();
    assert_eq!(is_whole, [true, true, false], "{words}");
}

#[test]
fn a_long_log_leaves_nothing_but_itself() {
    let mut tree = Tree::new();
    tree.write("default.do", "ifchange src\ncat src");
    tree.write("src", "1");
    assert_eq!(tree.redo(&["t"]).right, Some(true));
    let line = |stamp: u64| format!("1 file often {stamp} => ok\n");
    let lines: String = (0..LONG / 20).map(|number| line(number % 2)).collect();
    for signal in ["-TERM", "-KILL"] {
        tree.restart(signal);
        assert!(tree.ifchange(&["t"]).scripts.is_empty());
        for path in [".redo/server/compacting", ".redo/clean"] {
            assert!(!tree.at(path).exists(), "{path}");
        }
        let next = fs::read(tree.at(".redo/log.new")).unwrap_or_default();
        assert_eq!(next, b"", "the next log is begun");
        let log = [tree.read(".redo/log"), lines.clone()].concat();
        tree.write(".redo/log", &log);
    }
}
