//! What is shown on a terminal, and jobs of make.

use std::fs::{self, File};
use std::io::{ErrorKind, Read};
use std::process::{Command, Stdio};
use std::thread::{self, JoinHandle};
use std::time::Duration;

use redo_scripts::system::open_terminal;
use redo_wire::{Program, ToProgram, ToServer};

#[allow(dead_code)]
mod support;
use support::building::Run;
use support::{begun, finished, until, Peer, Tree};

const PAUSE: Duration = Duration::from_millis(5);
const SIZE: libc::winsize = libc::winsize {
    ws_row: 24,
    ws_col: 70,
    ws_xpixel: 0,
    ws_ypixel: 0,
};

/// What a terminal is sent until all have closed it, which it says by an error.
fn all_of(near: &mut File) -> Vec<u8> {
    let (mut text, mut room) = (Vec::new(), [0; 1000]);
    loop {
        match near.read(&mut room) {
            Ok(count) if count > 0 => text.extend(&room[..count]),
            Err(cause) if cause.kind() == ErrorKind::WouldBlock => thread::sleep(PAUSE),
            _ => return text,
        }
    }
}

/// A run whose standard error is a terminal, and what is written to that.
fn on_terminal(text: &str, script: &str) -> (Run, JoinHandle<String>) {
    let (near, far) = open_terminal(&SIZE).unwrap();
    let change = |command: &mut Command| {
        command
            .env("TERM", "xterm")
            .env_remove("NO_COLOR")
            .stderr(Stdio::from(far));
    };
    let run = Run::with(Program::Redo, text, &[("x.do", script)], change);
    let shown = thread::spawn(move || String::from_utf8(all_of(&mut File::from(near))).unwrap());
    (run, shown)
}

const SCRIPT: &str = ">begun\nuntil [ -e go ]; do sleep 0.01; done\n\
                      [ ! -t 2 ] || echo a terminal >&2\n";

fn shown(text: &str) -> String {
    let (mut run, shown) = on_terminal(text, SCRIPT);
    assert!(run.call.terminal);
    run.peer.send(&ToProgram::Want { slots: 4 });
    let order = run.script(1, "x");
    run.order(order);
    until("x begins", || run.tree.path("begun").exists());
    thread::sleep(Duration::from_millis(300));
    fs::write(run.tree.path("go"), "").unwrap();
    run.expect_end(1, true);
    let (done, _) = run.conclude(true);
    assert_eq!(done.status, 0);
    shown.join().unwrap()
}

#[test]
fn a_terminal_has_colours_and_a_line_of_progress() {
    let shown = shown("x");
    assert!(
        shown.contains("\u{1b}[32mredo  \u{1b}[1mx\u{1b}[m"),
        "{shown:?}"
    );
    assert!(
        shown.contains("redo: 0 done, 1 running, 4 left: x"),
        "{shown:?}"
    );
    assert!(shown.contains("a terminal"), "{shown:?}");
}

#[test]
fn options_take_them_away() {
    let shown = shown("--no-color --no-status x");
    assert!(shown.starts_with("redo  x"), "{shown:?}");
    assert!(
        !shown.contains('\u{1b}') && !shown.contains("running"),
        "{shown:?}"
    );
}

#[test]
fn a_run_shares_the_jobs_of_make() {
    let tree = Tree::new();
    let listener = tree.listen();
    tree.write(
        "Makefile",
        "all:\n\t+@exec -a redo-ifchange $(REDO) x\nSHELL = /bin/bash\n",
    );
    let mut command = Command::new("make");
    command
        .args(["-s", "-j3"])
        .current_dir(&tree.0)
        .env_remove("MAKEFLAGS");
    command
        .env("REDO", env!("CARGO_BIN_EXE_redo"))
        .env_remove("REDO_TASK");
    let child = begun(&mut command);
    let mut peer = Peer::accepted(&listener);
    assert_eq!(peer.call().program, Program::IfChange);
    peer.send(&ToProgram::Want { slots: 9 });
    assert_eq!(
        [peer.next(), peer.next()],
        [Some(ToServer::Slot), Some(ToServer::Slot)]
    );
    peer.send(&ToProgram::Answer { right: true });
    assert_eq!(peer.next(), Some(ToServer::Close));
    let done = finished(child);
    assert_eq!((done.status, done.errors.as_str()), (0, ""), "{done:?}");
}
