//! Several scripts at once, and GNU make's jobserver both ways.

mod common;

use std::fs::{self, File};
use std::io::{Read, Write};
use std::os::unix::fs::OpenOptionsExt;
use std::process::{Child, Command, Stdio};

use common::runs::{signal, Ended};
use common::{until, Tree};

/// Notes how many scripts run at once.
const BUSY: &str = "mkdir -p at_once\n: >\"at_once/$1\"\nls at_once | wc -l >>numbers\nsleep 0.2\n\
                    rm \"at_once/$1\"\n";
/// Goes on for ever, also after SIGTERM.
const STUBBORN: &str =
    "trap '' TERM\n: >\"began.$2\"\nfor i in $(seq 2000); do sleep 0.05 || :; done\n";

fn most_at_once(tree: &Tree) -> u32 {
    let numbers = tree.read("numbers");
    numbers
        .split_whitespace()
        .map(|number| number.parse().unwrap())
        .max()
        .unwrap()
}

fn make(tree: &Tree, words: &[&str]) -> Ended {
    let mut command = Command::new("make");
    command
        .args(words)
        .current_dir(tree.top())
        .env_remove("MAKEFLAGS")
        .stdout(Stdio::null());
    tree.end(tree.start_by(command))
}

#[test]
fn one_script_runs_at_a_time_without_jobs() {
    let tree = Tree::new();
    tree.write("default.busy.do", BUSY);
    assert_eq!(tree.run(&["1.busy", "2.busy", "3.busy"]).status, Some(0));
    assert_eq!(most_at_once(&tree), 1);
}

#[test]
fn as_many_scripts_run_at_once_as_there_are_jobs() {
    let tree = Tree::new();
    tree.write("default.busy.do", BUSY);
    let targets = [
        "-j3", "1.busy", "2.busy", "3.busy", "4.busy", "5.busy", "6.busy", "7.busy",
    ];
    assert_eq!(tree.run(&targets).status, Some(0));
    assert_eq!(most_at_once(&tree), 3);
}

#[test]
fn a_jobserver_that_cannot_be_reached_is_said() {
    let tree = Tree::new();
    tree.write("default.busy.do", BUSY);
    let mut command = tree.command(&["1.busy", "2.busy"]);
    command.env("MAKEFLAGS", " -j4 --jobserver-auth=97,98");
    let run = tree.end(tree.start_by(command));
    let wanted = "redo: jobserver 97,98 can't be reached: Bad file descriptor\n";
    assert!(run.errors.starts_with(wanted), "{}", run.errors);
    assert_eq!((run.status, most_at_once(&tree)), (Some(0), 1));
}

#[test]
fn a_run_below_make_shares_its_jobs() {
    let tree = Tree::new();
    tree.write("default.busy.do", BUSY);
    let run = tree
        .command(&[])
        .get_program()
        .to_str()
        .unwrap()
        .to_string();
    let targets = "1.busy 2.busy 3.busy 4.busy 5.busy 6.busy";
    let other = "mkdir -p at_once; : >at_once/make; ls at_once | wc -l >>numbers; sleep 0.5; \
                 rm at_once/make";
    let text = format!("all: one two\none:\n\t+{run} {targets}\ntwo:\n\t@{other}\n");
    tree.write("Makefile", &text);
    let ended = make(&tree, &["-j3"]);
    assert_eq!(ended.status, Some(0), "{}", ended.errors);
    assert!(
        (2..=3).contains(&most_at_once(&tree)),
        "{}",
        most_at_once(&tree)
    );
    assert!(!ended.errors.contains("jobserver"), "{}", ended.errors);
}

#[test]
fn make_below_a_run_shares_its_jobs() {
    let tree = Tree::new();
    tree.write("default.busy.do", BUSY);
    let recipe = BUSY.replace("$1", "make$@").replace('\n', "; ");
    let recipe = recipe.trim_end_matches("; ");
    tree.write(
        "Makefile",
        &format!("all: a b c d e f\na b c d e f:\n\t@{recipe}\n"),
    );
    tree.write("made.do", "make >&2\n");
    let run = tree.run(&["-j3", "made", "1.busy", "2.busy", "3.busy"]);
    assert_eq!(run.status, Some(0), "{}", run.errors);
    assert!(
        (2..=3).contains(&most_at_once(&tree)),
        "{}",
        most_at_once(&tree)
    );
    assert!(!run.errors.contains("jobserver"), "{}", run.errors);
}

/// A FIFO that is a jobserver with these tokens, which a test can read.
struct Fifo {
    tree: Tree,
    pipe: File,
}

impl Fifo {
    fn with(tokens: &[u8]) -> Fifo {
        let tree = Tree::new();
        let path = tree.at("fifo");
        assert!(Command::new("mkfifo")
            .arg(&path)
            .status()
            .unwrap()
            .success());
        let mut options = fs::OpenOptions::new();
        let options = options
            .read(true)
            .write(true)
            .custom_flags(libc::O_NONBLOCK);
        let mut pipe = options.open(&path).unwrap();
        pipe.write_all(tokens).unwrap();
        Fifo { tree, pipe }
    }

    fn start(&self, words: &[&str]) -> Child {
        let flags = format!(
            " -j4 --jobserver-auth=fifo:{}",
            self.tree.at("fifo").display()
        );
        let mut command = self.tree.command(words);
        command.env("MAKEFLAGS", flags);
        self.tree.start_by(command)
    }

    fn tokens(&mut self) -> Vec<u8> {
        let mut tokens = vec![0; 64];
        let count = self.pipe.read(&mut tokens).unwrap_or(0);
        tokens.truncate(count);
        tokens.sort_unstable();
        tokens
    }
}

#[test]
fn tokens_are_given_back_after_failures() {
    let mut fifo = Fifo::with(b"abc");
    fifo.tree
        .write("default.bad.do", &format!("{BUSY}exit 1\n"));
    let run = fifo.start(&["-k", "1.bad", "2.bad", "3.bad", "4.bad", "5.bad", "6.bad"]);
    assert_eq!(fifo.tree.end(run).status, Some(1));
    assert_eq!(most_at_once(&fifo.tree), 4);
    assert_eq!(fifo.tokens(), b"abc");
}

#[test]
fn tokens_are_given_back_after_a_signal() {
    let mut fifo = Fifo::with(b"abc");
    fifo.tree.write("default.slow.do", STUBBORN);
    let run = fifo.start(&["1.slow", "2.slow", "3.slow", "4.slow", "5.slow"]);
    let began = |name: &&str| fifo.tree.has(&format!("began.{name}"));
    until("four run", || ["1", "2", "3", "4"].iter().all(began));
    assert!(!began(&"5") && fifo.tokens().is_empty());
    signal(&run, "TERM");
    assert_eq!(fifo.tree.end(run).signal, Some(libc::SIGTERM));
    assert_eq!(fifo.tokens(), b"abc");
}

#[test]
fn more_files_are_open_than_may_be_by_default_which_scripts_still_have() {
    let tree = Tree::new();
    tree.write("default.n.do", "sleep 0.5\nulimit -S -n\n");
    let mut shell = Command::new("sh");
    shell
        .arg("-c")
        .arg("ulimit -S -n 64; exec \"$0\" -j40 \"$@\"");
    shell
        .arg(tree.command(&[]).get_program())
        .current_dir(tree.top())
        .env_remove("MAKEFLAGS");
    let targets: Vec<String> = (1..=40).map(|number| format!("{number}.n")).collect();
    shell.args(&targets);
    let run = tree.end(tree.start_by(shell));
    assert_eq!(run.status, Some(0), "{}", run.errors);
    assert!(targets.iter().all(|target| tree.read(target) == "64\n"));
}
