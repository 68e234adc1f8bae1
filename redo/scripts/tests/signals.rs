//! Runs that are stopped, continued and killed.

mod common;

use std::process::Command;
use std::time::Duration;

use common::runs::{signal, within};
use common::{ended, state_of, until, Tree};

const SLOW: &str = "echo \"$2\" >\"$3\"\n: >\"began.$2\"\nsleep 100 &\nsleep 100\n";
const STUBBORN: &str =
    "trap '' TERM\n: >\"began.$2\"\nfor i in $(seq 2000); do sleep 0.05 || :; done\n";

#[test]
fn a_run_that_is_stopped_dies_by_the_signal_and_leaves_nothing() {
    for (name, number) in [
        ("INT", libc::SIGINT),
        ("TERM", libc::SIGTERM),
        ("HUP", libc::SIGHUP),
    ] {
        let tree = Tree::new();
        tree.write("default.slow.do", SLOW);
        let run = tree.start(&["-j2", "a.slow", "b.slow"]);
        until("both run", || tree.has("began.a") && tree.has("began.b"));
        signal(&run, name);
        within(Duration::from_secs(40), name, || {
            assert_eq!(tree.end(run).signal, Some(number));
        });
        assert_eq!(tree.left_over(), Vec::<String>::new());
        until("the scripts are dead", || tree.scripts().is_empty());
        assert!(!tree.has("a.slow"));
        assert!(tree
            .read("errors")
            .contains("redo: a.slow: killed by SIGTERM\n"));
    }
}

#[test]
fn a_stubborn_script_is_killed_a_second_later() {
    let tree = Tree::new();
    tree.write("default.slow.do", STUBBORN);
    let run = tree.start(&["x.slow"]);
    until("it runs", || tree.has("began.x"));
    signal(&run, "INT");
    within(Duration::from_secs(40), "the end", || {
        let run = tree.end(run);
        assert_eq!(run.signal, Some(libc::SIGINT));
        assert!(
            run.errors.contains("x.slow: killed by SIGKILL"),
            "{}",
            run.errors
        );
    });
    assert_eq!(tree.left_over(), Vec::<String>::new());
    until("the scripts are dead", || tree.scripts().is_empty());
}

#[test]
fn what_a_stopped_script_leaves_is_killed() {
    let tree = Tree::new();
    let stubborn = "trap '' TERM\n: >began\nfor i in $(seq 2000); do sleep 0.05 || :; done\n";
    tree.write("stubborn", stubborn);
    tree.write(
        "x.do",
        "#!/bin/bash\nexec 187<&-\nsh ./stubborn &\nexec sleep 100\n",
    );
    let run = tree.start(&["x"]);
    until("it runs", || tree.has("began"));
    signal(&run, "TERM");
    within(Duration::from_secs(40), "the end", || {
        assert_eq!(tree.end(run).signal, Some(libc::SIGTERM));
    });
    until("the scripts are dead", || tree.scripts().is_empty());
}

#[test]
fn a_run_may_get_two_signals() {
    let tree = Tree::new();
    tree.write("default.slow.do", STUBBORN);
    let run = tree.start(&["x.slow"]);
    until("it runs", || tree.has("began.x"));
    signal(&run, "TERM");
    signal(&run, "INT");
    let run = tree.end(run);
    assert!(matches!(run.signal, Some(libc::SIGTERM | libc::SIGINT)));
    assert!(
        run.errors.contains("x.slow: killed by SIGKILL"),
        "{}",
        run.errors
    );
    until("the scripts are dead", || tree.scripts().is_empty());
}

#[test]
fn a_signal_that_is_ignored_at_the_beginning_stays_ignored() {
    let tree = Tree::new();
    tree.write(
        "x.do",
        ": >began\nwhile ! [ -e go ]; do sleep 0.02 || :; done\necho x\n",
    );
    let mut shell = Command::new("sh");
    shell
        .arg("-c")
        .arg("trap '' HUP; exec \"$0\" x")
        .arg(tree.command(&[]).get_program());
    shell.current_dir(tree.top());
    let run = tree.start_by(shell);
    until("it runs", || tree.has("began"));
    signal(&run, "HUP");
    tree.write("go", "");
    assert_eq!(tree.end(run).status, Some(0));
}

#[test]
fn scripts_die_with_a_run_that_is_killed_and_the_next_one_removes_what_they_left() {
    let tree = Tree::new();
    tree.write("default.slow.do", SLOW);
    let mut run = tree.start(&["-j2", "a.slow", "b.slow"]);
    until("both run", || tree.has("began.a") && tree.has("began.b"));
    until("their programs run", || tree.scripts().len() == 6);
    run.kill().unwrap();
    ended(&mut run);
    until("the scripts are dead", || tree.scripts().is_empty());
    assert!(!tree.left_over().is_empty());
    tree.write("x.do", "echo x\n");
    let run = tree.run(&["x"]);
    assert_eq!((run.status, run.errors.as_str()), (Some(0), "redo  x\n"));
    assert_eq!(tree.left_over(), Vec::<String>::new());
}

#[test]
fn a_script_that_kills_its_run_at_once_dies_too() {
    let tree = Tree::new();
    tree.write("x.do", "kill -9 \"$PPID\"\n: >went_on\nsleep 100\n");
    for _ in 0..20 {
        assert_eq!(tree.run(&["x"]).signal, Some(libc::SIGKILL));
        until("the script is dead", || tree.scripts().is_empty());
    }
}

#[test]
fn a_script_that_closed_the_end_of_its_pipe_dies_too() {
    let tree = Tree::new();
    tree.write(
        "x.do",
        "#!/bin/bash\nexec 187<&-\n: >began\nsleep 100\nexit\n",
    );
    let mut run = tree.start(&["x"]);
    until("it runs", || tree.has("began"));
    std::thread::sleep(Duration::from_millis(100));
    run.kill().unwrap();
    ended(&mut run);
    tree.write("y.do", "echo y\n");
    assert_eq!(tree.run(&["y"]).status, Some(0));
    until("the script is dead", || tree.scripts().is_empty());
    assert_eq!(tree.left_over(), Vec::<String>::new());
}

#[test]
fn ctrl_z_stops_the_scripts_too_and_they_go_on_with_the_run() {
    let tree = Tree::new();
    tree.write(
        "x.do",
        "echo $$ >pid\nwhile ! [ -e go ]; do sleep 0.02 || :; done\necho x\n",
    );
    let run = tree.start(&["x"]);
    until("it runs", || tree.read("pid").ends_with('\n'));
    let script: i32 = tree.read("pid").trim().parse().unwrap();
    signal(&run, "TSTP");
    until("the run stops", || state_of(run.id() as i32) == "T");
    until("the script stops", || {
        ["T", "D"].contains(&state_of(script).as_str())
    });
    tree.write("go", "");
    std::thread::sleep(Duration::from_millis(300));
    assert!(!tree.has("x"));
    signal(&run, "CONT");
    assert_eq!(tree.end(run).status, Some(0));
    assert_eq!(tree.read("x"), "x\n");
}

#[test]
fn a_stopped_run_that_is_terminated_ends_its_scripts() {
    let tree = Tree::new();
    tree.write("default.slow.do", SLOW);
    let run = tree.start(&["x.slow"]);
    until("it runs", || tree.has("began.x"));
    signal(&run, "TSTP");
    until("the run stops", || state_of(run.id() as i32) == "T");
    signal(&run, "TERM");
    signal(&run, "CONT");
    assert_eq!(tree.end(run).signal, Some(libc::SIGTERM));
    assert_eq!(tree.left_over(), Vec::<String>::new());
    until("the scripts are dead", || tree.scripts().is_empty());
}

#[test]
fn a_script_that_ends_well_when_it_is_stopped_has_built_nothing() {
    let tree = Tree::new();
    tree.write(
        "x.do",
        "trap 'exit 0' TERM\necho x\n: >began\nfor i in $(seq 5000); do sleep 0.02 || :; done\n",
    );
    let run = tree.start(&["x"]);
    until("it runs", || tree.has("began"));
    signal(&run, "INT");
    let run = tree.end(run);
    assert_eq!(run.signal, Some(libc::SIGINT));
    assert!(
        run.errors.ends_with("redo: x: stopped with the run\n"),
        "{}",
        run.errors
    );
    assert_eq!((tree.has("x"), tree.left_over()), (false, vec![]));
}

#[test]
fn a_run_notes_what_it_builds_and_the_groups_of_its_scripts() {
    let tree = Tree::new();
    tree.write(
        "x.do",
        "echo $$ >pid\nwhile ! [ -e go ]; do sleep 0.02 || :; done\n",
    );
    let run = tree.start(&["--grant=5", "x"]);
    until("it runs", || tree.read("pid").ends_with('\n'));
    let journal = format!(".redo/run/{}.builds", run.id());
    let wanted = format!("+ 5 x\n@ 5 x {}", tree.read("pid"));
    until("it is noted", || tree.read(&journal) == wanted);
    tree.write("go", "");
    assert_eq!(tree.end(run).status, Some(0));
    assert!(!tree.has(&journal));
}
