//! Runs whose standard error is a terminal.

mod common;

use std::fs::File;
use std::io::Read;
use std::process::{Child, Stdio};

use common::{ended, example, until, Tree};
use redo_scripts::system;

/// A run on a terminal, and what is shown there.
struct OnTerminal {
    run: Child,
    near: File,
    shown: Vec<u8>,
}

impl OnTerminal {
    fn start(tree: &Tree, words: &[&str], columns: u16, variables: &[(&str, &str)]) -> OnTerminal {
        let size = libc::winsize {
            ws_row: 24,
            ws_col: columns,
            ws_xpixel: 0,
            ws_ypixel: 0,
        };
        let (near, far) = system::open_terminal(&size).unwrap();
        let mut command = example("run");
        command
            .args(words)
            .current_dir(tree.top())
            .stdin(Stdio::null())
            .stderr(File::from(far));
        for name in ["MAKEFLAGS", "NO_COLOR", "GCC_COLORS"] {
            command.env_remove(name);
        }
        command.env("TERM", "xterm").envs(variables.iter().copied());
        OnTerminal {
            run: command.spawn().unwrap(),
            near: File::from(near),
            shown: Vec::new(),
        }
    }

    /// Takes what was shown by now, and says whether a text is in it.
    fn shows(&mut self, text: &str) -> bool {
        let mut block = [0; 4096];
        while let Ok(count) = self.near.read(&mut block) {
            if count == 0 {
                break;
            }
            self.shown.extend_from_slice(&block[..count]);
        }
        String::from_utf8_lossy(&self.shown).contains(text)
    }

    /// Waits for the end, and returns all that was shown.
    fn end(mut self) -> String {
        assert_eq!(ended(&mut self.run).code(), Some(0));
        self.shows("");
        String::from_utf8(self.shown).unwrap()
    }
}

/// The lines that stay on a terminal, from each its part behind the last return to its beginning.
fn staying(shown: &str) -> Vec<&str> {
    let lines = shown
        .split('\n')
        .map(|line| line.rsplit("\r\x1b[K").next().unwrap());
    lines.filter(|line| !line.is_empty()).collect()
}

const COLOURED: &str =
    "if test -t 2; then printf '\\033[31mred\\033[m\\n' >&2; else echo plain >&2; fi\n";

#[test]
fn a_compiler_sees_a_terminal_and_keeps_its_colours() {
    let tree = Tree::new();
    tree.write("x.do", COLOURED);
    let run = OnTerminal::start(&tree, &["x"], 80, &[]);
    let wanted = ["\x1b[32mredo  \x1b[1mx\x1b[m", "\x1b[31mred\x1b[m"];
    assert_eq!(staying(&run.end()), wanted);
}

#[test]
fn without_colours_scripts_see_no_terminal() {
    let tree = Tree::new();
    tree.write("x.do", COLOURED);
    for variables in [("NO_COLOR", "1"), ("TERM", "dumb")] {
        let run = OnTerminal::start(&tree, &["x"], 80, &[variables]);
        assert_eq!(staying(&run.end()), ["redo  x", "plain"], "{variables:?}");
    }
}

#[test]
fn no_color_that_is_empty_forbids_nothing() {
    let tree = Tree::new();
    tree.write("x.do", COLOURED);
    let run = OnTerminal::start(&tree, &["x"], 80, &[("NO_COLOR", "")]);
    assert!(run.end().contains("\x1b[31mred"));
}

#[test]
fn gcc_shows_its_colours() {
    if std::process::Command::new("gcc")
        .arg("--version")
        .output()
        .is_err()
    {
        eprintln!("skipped: there is no gcc");
        return;
    }
    let tree = Tree::new();
    tree.write("x.c", "int main(void) { int unused; return 0; }\n");
    tree.write("x.do", "gcc -Wall -c -o \"$3\" x.c\n");
    let shown = OnTerminal::start(&tree, &["x"], 80, &[]).end();
    assert!(
        shown.contains("\x1b[01;35m\x1b[Kwarning: \x1b[m\x1b[K"),
        "{shown:?}"
    );
}

#[test]
fn all_that_a_script_writes_is_in_its_log() {
    let tree = Tree::new();
    tree.write("x.do", "seq 1 20000 >&2\nprintf end >&2\n");
    let mut run = OnTerminal::start(&tree, &["x"], 80, &[]);
    until("it is shown", || run.shows("end\n"));
    let shown = run.end();
    let lines: Vec<&str> = staying(&shown).into_iter().skip(1).collect();
    let mut wanted: Vec<String> = (1..=20000).map(|number| number.to_string()).collect();
    wanted.push("end".to_string());
    assert_eq!(lines, wanted);
    let logs = std::fs::read_dir(tree.at(".redo/logs")).unwrap().flatten();
    let log = std::fs::read_to_string(logs.map(|log| log.path()).next().unwrap()).unwrap();
    assert_eq!(log.lines().count(), 1 + 20001 + 1);
}

#[test]
fn a_line_says_what_runs_until_the_end() {
    let tree = Tree::new();
    tree.write(
        "default.t.do",
        ": >\"began.$2\"\nwhile ! [ -e go ]; do sleep 0.02 || :; done\n",
    );
    let mut run = OnTerminal::start(&tree, &["-j2", "a.t", "b.t", "c.t"], 60, &[]);
    until("both run", || tree.has("began.a") && tree.has("began.b"));
    until("it is said", || {
        run.shows("redo: 0 done, 2 running, 1 left: b.t a.t")
    });
    tree.write("go", "");
    let shown = run.end();
    let lines = staying(&shown);
    assert!(
        lines.iter().all(|line| !line.contains("running")),
        "{lines:?}"
    );
    assert_eq!(lines.len(), 3);
}

#[test]
fn a_terminal_that_a_script_leaves_open_ends_with_it() {
    let tree = Tree::new();
    tree.write(
        "x.do",
        "(while ! [ -e go ]; do sleep 0.02 || :; done; echo late >&2 || :; : >went) &\n",
    );
    let run = OnTerminal::start(&tree, &["x"], 80, &[]);
    assert_eq!(staying(&run.end()).len(), 1);
    tree.write("go", "");
    until("it goes on", || tree.has("went"));
}
