//! Whole runs: what is built and what is shown.

mod common;

use std::fs;
use std::os::unix::fs::{MetadataExt, PermissionsExt};
use std::os::unix::process::CommandExt;
use std::process::{Command, Stdio};

use common::runs::Ended;
use common::{ended, until, Tree};

const NOBODY: u32 = 65534;

#[test]
fn targets_are_built() {
    let tree = Tree::new();
    tree.write(
        "default.o.do",
        "echo \"said $1\" >&2\necho \"$1 $2\" >\"$3\"\n",
    );
    tree.write("y.do", "echo y\n");
    let run = tree.run(&["x.o", "y"]);
    assert_eq!(run.status, Some(0));
    assert_eq!(run.errors, "redo  x.o\nsaid x.o\nredo  y\n");
    assert_eq!(tree.read("x.o") + &tree.read("y"), "x.o x\ny\n");
    assert_eq!(tree.left_over(), Vec::<String>::new());
}

#[test]
fn a_failure_stops_a_run_and_with_k_it_is_summed_up() {
    let tree = Tree::new();
    tree.write("bad.do", "echo text\nexit 3\n");
    tree.write("good.do", "echo good\n");
    let run = tree.run(&["bad", "good"]);
    assert_eq!(run.status, Some(1));
    assert_eq!(run.errors, "redo  bad\nredo: bad: status 3\n");
    assert!(!tree.has("good") && !tree.has("bad"));
    let run = tree.run(&["-k", "bad", "nothing", "good"]);
    assert_eq!(run.status, Some(1));
    let wanted = "redo  bad\nredo: bad: status 3\nredo: no rule to make nothing\nredo  good\n\
                  redo: 2 failures:\nredo:   bad: status 3\nredo:   no rule to make nothing\n";
    assert_eq!(run.errors, wanted);
    assert_eq!(
        (tree.read("good").as_str(), tree.left_over().len()),
        ("good\n", 0)
    );
}

#[test]
fn what_cannot_be_run_is_one_line_that_names_it() {
    let tree = Tree::new();
    tree.write("plain", "text\n");
    let plain = tree.at("plain").display().to_string();
    for (first, wanted) in [
        ("#!/bin/sh\0x", "x.do: its first line, /bin/sh, has a NUL"),
        (
            "#!/no/such/interpreter -e",
            "x.do: /no/such/interpreter: No such file or directory",
        ),
        ("#!/etc", "x.do: /etc: Permission denied"),
        (
            &format!("#!{plain}"),
            &format!("x.do: {plain}: Permission denied"),
        ),
    ] {
        tree.write("x.do", &format!("{first}\necho x\n"));
        let run = tree.run(&["x"]);
        assert_eq!(run.errors, format!("redo  x\nredo: x: {wanted}\n"));
        assert_eq!((run.status, tree.left_over().len()), (Some(1), 0));
    }
}

#[test]
fn a_file_that_is_in_the_way_stays() {
    let tree = Tree::new();
    tree.write("x.do", "echo x\n");
    tree.write("x.redo.7.tmp", "precious\n");
    let run = tree.run(&["--grant=7", "x"]);
    assert_eq!(run.errors, "redo: x: x.redo.7.tmp is in the way: move it\n");
    assert_eq!(
        (run.status, tree.read("x.redo.7.tmp").as_str()),
        (Some(1), "precious\n")
    );
    assert_eq!(tree.run(&["--grant=8", "x"]).status, Some(0));
}

#[test]
fn scripts_have_what_their_asker_has() {
    let tree = Tree::new();
    tree.write(
        "x.do",
        "echo \"$A\"; umask; ulimit -S -n; ulimit -S -c; : >made\n",
    );
    let path = tree.command(&[]).get_program().to_os_string();
    let mut shell = Command::new("sh");
    shell
        .arg("-c")
        .arg("umask 27; ulimit -S -n 77; ulimit -S -c 0; A='b c' exec \"$0\" x");
    shell.arg(path).current_dir(tree.top());
    assert_eq!(tree.end(tree.start_by(shell)).status, Some(0));
    assert_eq!(tree.read("x"), "b c\n0027\n77\n0\n");
    let mode = |name| fs::metadata(tree.at(name)).unwrap().permissions().mode() & 0o777;
    assert_eq!((mode("x"), mode("made")), (0o640, 0o640));
}

#[test]
fn nobody_reads_what_is_shown() {
    let tree = Tree::new();
    tree.write("default.do", "echo text >&2\necho \"$1\"\n");
    let mut command = tree.command(&["x", "y"]);
    command.stderr(Stdio::piped()).stdin(Stdio::null());
    let mut run = command.spawn().unwrap();
    drop(run.stderr.take());
    assert_eq!(ended(&mut run).code(), Some(0));
    assert_eq!(tree.read("x") + &tree.read("y"), "x\ny\n");
}

#[test]
fn what_a_script_says_is_shown_while_it_goes_on() {
    let tree = Tree::new();
    tree.write(
        "x.do",
        "echo begins >&2\nwhile ! [ -e go ]; do sleep 0.01; done\n",
    );
    let run = tree.start(&["x"]);
    until("it is shown", || tree.read("errors") == "redo  x\nbegins\n");
    tree.write("go", "");
    assert_eq!(tree.end(run).status, Some(0));
}

#[test]
fn without_logs_scripts_write_at_once() {
    let tree = Tree::new();
    tree.write(
        "x.do",
        "printf begins >&2\nwhile ! [ -e go ]; do sleep 0.01; done\n",
    );
    let run = tree.start(&["--no-log", "x"]);
    until("it is shown", || tree.read("errors") == "redo  x\nbegins");
    tree.write("go", "");
    assert_eq!(tree.end(run).status, Some(0));
}

/// Runs the program as a user who isn't root, who owns the tree from then on.
fn run_unprivileged(tree: &Tree, words: &[&str]) -> Ended {
    let program = tree.at("program");
    // by another process: no script of another test has the copy open for writing then
    let files = [
        tree.command(&[]).get_program().into(),
        program.clone().into_os_string(),
    ];
    assert!(Command::new("cp").args(files).status().unwrap().success());
    let mut command = Command::new(&program);
    command
        .args(words)
        .current_dir(tree.top())
        .env_remove("MAKEFLAGS");
    if fs::metadata("/proc/self").unwrap().uid() == 0 {
        let owner = [NOBODY.to_string(), tree.top().display().to_string()];
        assert!(Command::new("chown")
            .arg("-R")
            .args(owner)
            .status()
            .unwrap()
            .success());
        command.uid(NOBODY);
    }
    tree.end(tree.start_by(command))
}

#[test]
fn folders_that_are_not_writable_are_replaced_and_removed() {
    let tree = Tree::new();
    let script = "mkdir -p \"$3/sub\"\ncp text \"$3/sub/a\"\nchmod 555 \"$3/sub\"\n";
    tree.write("gen.do", script);
    tree.write("text", "1\n");
    let run = run_unprivileged(&tree, &["--grant=1", "gen"]);
    assert_eq!((run.status, run.errors.as_str()), (Some(0), "redo  gen\n"));
    tree.write("text", "22\n");
    let run = run_unprivileged(&tree, &["--grant=2", "gen"]);
    assert_eq!((run.status, run.errors.as_str()), (Some(0), "redo  gen\n"));
    assert_eq!(tree.read("gen/sub/a"), "22\n");
    tree.write("gen.do", &format!("{script}exit 3\n"));
    let run = run_unprivileged(&tree, &["--grant=3", "gen"]);
    assert_eq!((run.status, tree.left_over()), (Some(1), vec![]));
}

#[test]
fn a_script_that_may_not_be_read_is_named() {
    let tree = Tree::new();
    tree.write("x.do", "echo x\n");
    fs::set_permissions(tree.at("x.do"), fs::Permissions::from_mode(0o200)).unwrap();
    let run = run_unprivileged(&tree, &["x"]);
    assert_eq!(run.errors, "redo  x\nredo: x: x.do: Permission denied\n");
    assert_eq!((run.status, tree.left_over()), (Some(1), vec![]));
}
