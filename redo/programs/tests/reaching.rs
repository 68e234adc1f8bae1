//! How programs reach the server of a tree: one that is there, and one that they start.

use std::fs;
use std::os::unix::fs::{symlink, PermissionsExt};
use std::os::unix::net::UnixListener;
use std::os::unix::process::CommandExt;
use std::path::PathBuf;
use std::process::Command;
use std::thread;
use std::time::Duration;

use redo_wire::ToProgram;

#[allow(dead_code)]
mod support;
use support::{begun, copy_program, ended, finished, run, served, until, Peer, Tree};

const END: ToProgram = ToProgram::End { status: 0 };

fn output(text: &str) -> ToProgram {
    ToProgram::Output(text.as_bytes().to_vec())
}

#[test]
fn a_server_that_greets_by_a_line_is_understood() {
    let tree = Tree::new();
    let listener = tree.listen();
    let server = thread::spawn(move || served(&listener, b"session 63\n", vec![output("a"), END]));
    assert_eq!(run(&mut tree.program("redo-ood")), ended(0, "a", ""));
    server.join().unwrap();
}

#[test]
fn a_server_without_a_database_says_why() {
    let tree = Tree::new();
    let listener = tree.listen();
    let line = b"0 failed redodb-live: log line 3: no hash\n";
    let server = thread::spawn(move || served(&listener, line, Vec::new()));
    let done = run(&mut tree.program("redo-ood"));
    assert_eq!(
        done,
        ended(1, "", "redo-ood: redodb-live: log line 3: no hash\n")
    );
    server.join().unwrap();
}

#[test]
fn a_server_that_ends_before_it_answers_is_asked_again() {
    let tree = Tree::new();
    let server = tree.serve(vec![Vec::new(), Vec::new(), vec![output("a\n"), END]]);
    assert_eq!(run(&mut tree.program("redo-ood")), ended(0, "a\n", ""));
    assert_eq!(server.calls().len(), 3);
}

#[test]
fn a_server_that_ends_in_the_middle_is_a_failure() {
    let tree = Tree::new();
    let server = tree.serve(vec![vec![output("a\n")]]);
    let done = run(&mut tree.program("redo-ood"));
    assert_eq!(done, ended(1, "a\n", "redo-ood: the server has ended\n"));
    server.calls();
}

#[test]
fn who_waits_for_an_answer_says_so_once() {
    let tree = Tree::new();
    let listener = tree.listen();
    tree.write(".redo/server/lock", "12");
    let mut command = tree.program("redo-why");
    let child = begun(command.arg("x").env("REDO_PATIENCE", "0.05"));
    let mut peer = Peer::accepted(&listener);
    peer.call();
    thread::sleep(Duration::from_millis(800));
    peer.send(&END);
    let line = format!(
        "redo: waiting for the server of {} (process 12)\n",
        tree.0.display()
    );
    assert_eq!(finished(child), ended(0, "", &line));
}

#[test]
fn what_is_no_number_of_seconds_does_no_harm() {
    for value in ["", "x", "nan", "inf", "-1", "1e99", "0"] {
        let tree = Tree::new();
        let server = tree.serve(vec![vec![END]]);
        assert_eq!(
            run(tree.program("redo").env("REDO_PATIENCE", value)).status,
            0,
            "{value}"
        );
        server.call();
    }
}

/// A program in the server's place: it notes that it was called, and does some words of the shell.
fn server_program(tree: &Tree, words: &str) -> PathBuf {
    let text = format!(
        "#!/bin/sh\necho \"$*\" >>\"{}/called\"\n{words}\n",
        tree.0.display()
    );
    tree.write_program("server", &text)
}

#[test]
fn a_server_is_started_where_none_listens() {
    let tree = Tree::bare();
    let words = format!(
        "until [ -S '{}' ]; do sleep 0.01; done",
        tree.socket().display()
    );
    let program = server_program(&tree, &words);
    let mut command = tree.program("redo");
    command
        .env("REDO_SERVER", &program)
        .env("REDODB_LIVE", "/bin/true")
        .env("REDO_IDLE", "7.5");
    let child = begun(&mut command);
    until("a call", || tree.path("called").exists());
    let server = tree.serve(vec![vec![END]]);
    assert_eq!(finished(child), ended(0, "", ""));
    server.call();
    let called = fs::read_to_string(tree.path("called")).unwrap();
    assert_eq!(
        called,
        format!("--detach --idle 7.5 --top {}\n", tree.0.display())
    );
    assert_eq!(
        fs::read_to_string(tree.path(".redo/.gitignore")).unwrap(),
        "*\n"
    );
    let rights = fs::metadata(tree.path(".redo/server"))
        .unwrap()
        .permissions()
        .mode();
    assert_eq!(rights & 0o777, 0o700);
}

#[test]
fn a_socket_on_which_nobody_listens_is_no_server() {
    let tree = Tree::new();
    drop(tree.listen());
    let program = server_program(&tree, "echo one >&2; echo 'the log is broken' >&2; exit 2");
    let mut command = tree.program("redo-ood");
    command
        .env("REDO_SERVER", program)
        .env("REDODB_LIVE", "/bin/true");
    let line = "redo-ood: the server can't be started: the log is broken\n";
    assert_eq!(run(&mut command), ended(1, "", line));
    assert_eq!(run(&mut command), ended(1, "", line));
    let said = fs::read_to_string(tree.path(".redo/server/errors")).unwrap();
    assert_eq!(said, "one\nthe log is broken\n".repeat(2));
}

#[test]
fn a_server_program_that_is_not_there_is_named() {
    let tree = Tree::new();
    let mut command = tree.program("redo-ood");
    command
        .env("REDO_SERVER", "nowhere")
        .env("REDODB_LIVE", "/bin/true");
    let path = tree.path("nowhere");
    let line = format!("redo-ood: {}: No such file or directory\n", path.display());
    assert_eq!(run(&mut command), ended(1, "", &line));
}

/// A program of redo in a folder of its own, beside a server that notes its database, and fails.
fn installed(tree: &Tree, others: &[&str]) -> Command {
    let folder = tree.path("bin");
    fs::create_dir(&folder).unwrap();
    fs::create_dir(tree.path("libexec")).unwrap();
    copy_program(env!("CARGO_BIN_EXE_redo"), &folder.join("redo"));
    let server = format!(
        "#!/bin/sh\necho \"$REDODB_LIVE\" >'{}/live'\nexit 2\n",
        tree.0.display()
    );
    tree.write_program("bin/redo-server", &server);
    for other in others {
        tree.write_program(other, "#!/bin/sh\n");
    }
    let mut command = Command::new(folder.join("redo"));
    command
        .arg0("redo-ood")
        .current_dir(&tree.0)
        .env("PATH", "/usr/bin:/bin");
    for variable in ["REDO_SERVER", "REDODB_LIVE", "REDO_TASK", "REDO_SOCKET"] {
        command.env_remove(variable);
    }
    command
}

/// What it says before it fails, and which database the server was to take.
fn chosen(others: &[&str], change: impl FnOnce(&mut Command)) -> (String, String) {
    let tree = Tree::new();
    let mut command = installed(&tree, others);
    change(&mut command);
    let done = run(&mut command);
    let said = done
        .errors
        .replace("redo-ood: the server can't be started\n", "");
    assert_eq!((done.status, done.output.as_str()), (1, ""));
    let live = fs::read_to_string(tree.path("live")).unwrap();
    let live = live
        .trim_end()
        .replace(&format!("{}/", tree.0.display()), "");
    (said, live)
}

#[test]
fn the_database_is_the_proved_one_and_else_a_stand_in_that_is_named() {
    let both = ["libexec/redodb-live", "bin/redodb-live-plain"];
    let (said, live) = chosen(&both, |_| {});
    assert_eq!(
        (said.as_str(), live.as_str()),
        ("", "bin/../libexec/redodb-live")
    );
    let (said, live) = chosen(&both[1..], |_| {});
    let line = "redo: redodb-live is not proved yet: a stand-in in plain Rust takes its place; \
                ./prove proves and builds it\n";
    assert_eq!(
        (said.as_str(), live.as_str()),
        (line, "bin/redodb-live-plain")
    );
    let own = |command: &mut Command| {
        command.env("REDODB_LIVE", "own/live");
    };
    let (said, live) = chosen(&both, own);
    assert_eq!((said.as_str(), live.as_str()), ("", "own/live"));
}

#[test]
fn what_is_not_the_callers_is_refused() {
    let tree = Tree::new();
    drop(tree.listen());
    fs::remove_file(tree.socket()).unwrap();
    UnixListener::bind(tree.path("other")).unwrap();
    symlink(tree.path("other"), tree.socket()).unwrap();
    let done = run(&mut tree.program("redo-ood"));
    let text = "is a link: redo makes no such thing there; remove it";
    let line = format!("redo-ood: {} {text}\n", tree.socket().display());
    assert_eq!(done, ended(1, "", &line));
    let above = Tree::new();
    fs::create_dir_all(above.path("d/.redo")).unwrap();
    let done = run(above.program("redo").current_dir(above.path("d")));
    assert!(
        done.errors.contains("/d/.redo lies in the tree of "),
        "{done:?}"
    );
    assert_eq!(done.status, 1);
}
