//! Calls that build, with a server that tells which scripts to run.

use std::fs;
use std::io::Write;
use std::os::unix::fs::PermissionsExt;
use std::process::Command;
use std::thread;
use std::time::Duration;

use redo_wire::{Limit, Program, Said, Say, Script, Surroundings, ToProgram, ToServer, LIMITS};

#[allow(dead_code)]
mod support;
use support::building::Run;
use support::{bytes, ended, finished, until, words, Peer};

#[test]
fn a_script_is_run_and_its_output_is_in_place_when_that_is_told() {
    let script = "echo words >&2\necho \"$1 $2 $3 $PWD $REDO_TASK $REDO_SOCKET\"\n";
    let mut run = Run::new(Program::Redo, "x", &[("x.do", script)]);
    assert_eq!(
        (run.call.program, run.call.words.clone()),
        (Program::Redo, words("x"))
    );
    let order = run.script(77, "x");
    run.order(order);
    run.expect_end(77, true);
    let (top, socket) = (run.tree.0.display(), run.tree.socket());
    let wanted = format!("x x x.redo.1.tmp {top} 77 {}\n", socket.display());
    assert_eq!(run.read("x"), wanted);
    let (done, tree) = run.conclude(true);
    assert_eq!(done, ended(0, "", "redo  x\nwords\n"));
    assert_eq!(fs::read_dir(tree.path(".redo/run")).unwrap().count(), 0);
}

/// `printf 'file 0\0' | b2sum -l 224` of coreutils prints its digits: an empty file.
const EMPTY_FILE: &[u8] = b"b2-6dc621987d9986a6f40faa3b0c2b26567c448945b5474762230aa99a";

#[test]
fn the_stamp_of_what_a_script_made_is_told() {
    let mut run = Run::new(Program::Redo, "x", &[("x.do", ": >$3\n"), ("y.do", ":\n")]);
    run.order(run.script(1, "x"));
    assert_eq!(run.expect_end(1, true).as_deref(), Some(EMPTY_FILE));
    run.order(run.script(2, "y"));
    assert_eq!(run.expect_end(2, true), None);
    run.conclude(true);
}

#[test]
fn a_script_that_fails_leaves_the_target_as_it_was() {
    let mut run = Run::new(Program::IfChange, "x", &[("x.do", "echo new\nexit 3\n")]);
    run.tree.write("x", "old\n");
    let order = run.script(1, "x");
    run.order(order);
    run.expect_end(1, false);
    assert_eq!(run.read("x"), "old\n");
    let (done, _) = run.conclude(false);
    assert_eq!(done, ended(1, "", "redo  x\nredo: x: status 3\n"));
}

#[test]
fn a_script_that_cannot_be_started_has_ended() {
    let mut run = Run::new(Program::Redo, "x", &[("x.do", "#!/nowhere/sh\n")]);
    let order = run.script(1, "x");
    run.order(order);
    run.expect_end(1, false);
    let (done, _) = run.conclude(false);
    let line = "redo: x: x.do: /nowhere/sh: No such file or directory\n";
    assert_eq!(done, ended(1, "", &format!("redo  x\n{line}")));
}

#[test]
fn the_programs_of_a_script_reach_the_server() {
    let scripts = [("x.do", "redo-ifchange y z\ncat y\n"), ("y.do", "echo y\n")];
    let mut run = Run::new(Program::Redo, "x", &scripts);
    let order = run.script(5, "x");
    run.order(order);
    let mut inner = Peer::accepted(&run.listener);
    let call = inner.call();
    assert_eq!(
        (call.program, call.task, call.words),
        (Program::IfChange, Some(5), words("y z"))
    );
    let order = Script {
        asker: Some(5),
        ..run.script(6, "y")
    };
    run.order(order);
    run.expect_end(6, true);
    inner.send(&ToProgram::End { status: 0 });
    run.expect_end(5, true);
    assert_eq!(run.read("x"), "y\n");
    let (done, tree) = run.conclude(true);
    assert_eq!(done, ended(0, "", "redo  x\nredo    y\n"));
    let logged = support::run(tree.program("redo-log").arg("x"));
    assert_eq!(logged, ended(0, "redo  x\nredo    y\n", ""));
    let logged = support::run(tree.program("redo-log").args(["-n", "x"]));
    assert_eq!(logged, ended(0, "redo  x\n", ""));
    let logged = support::run(tree.program("redo-log").arg("z"));
    assert_eq!(logged, ended(1, "", "redo-log: z has no log\n"));
}

#[test]
fn a_script_has_the_surroundings_of_whoever_asks() {
    let script = "umask\nulimit -Sn\necho \"$A $B\"\nls -l x.redo.1.out | cut -c-10\n";
    let change = |command: &mut Command| {
        command.env("A", "own").env("B", "own");
    };
    let mut run = Run::with(Program::Redo, "x", &[("x.do", script)], change);
    let own = &run.call.surroundings;
    let mut limits: [Limit; LIMITS] = own.limits;
    limits[libc::RLIMIT_NOFILE as usize].soft = 99;
    let is_other = |variable: &&Vec<u8>| !variable.starts_with(b"A=");
    let mut environment: Vec<_> = own.environment.iter().filter(is_other).cloned().collect();
    environment.push(b"A=other".to_vec());
    let surroundings = Surroundings {
        environment,
        umask: 0o27,
        limits,
    };
    let order = Script {
        surroundings: Some(surroundings),
        ..run.script(1, "x")
    };
    run.order(order);
    run.expect_end(1, true);
    assert_eq!(run.read("x"), "0027\n99\nother own\n-rw-r-----\n");
    let mode = fs::metadata(run.tree.path("x"))
        .unwrap()
        .permissions()
        .mode();
    assert_eq!(mode & 0o777, 0o640);
    run.conclude(true);
}

#[test]
fn tokens_of_the_jobserver_are_slots() {
    let script = ("x.do", "echo \"$MAKEFLAGS\"\n");
    let mut run = Run::new(Program::Redo, "-j3 x", &[script]);
    run.peer.send(&ToProgram::Want { slots: 5 });
    assert_eq!(run.peer.next(), Some(ToServer::Slot));
    assert_eq!(run.peer.next(), Some(ToServer::Slot));
    run.peer.send(&ToProgram::Want { slots: 0 });
    run.peer.send(&ToProgram::Return { slots: 2 });
    run.peer.send(&ToProgram::Want { slots: 1 });
    assert_eq!(run.peer.next(), Some(ToServer::Slot));
    let order = run.script(1, "x");
    run.order(order);
    run.expect_end(1, true);
    assert!(
        run.read("x").contains("-j3 --jobserver-auth="),
        "{}",
        run.read("x")
    );
    run.conclude(true);
}

#[test]
fn the_environment_may_say_how_many_jobs_run() {
    let change = |command: &mut Command| {
        command.env("REDO_JOBS", "2");
    };
    let mut run = Run::with(Program::IfChange, "x", &[], change);
    run.peer.send(&ToProgram::Want { slots: 5 });
    assert_eq!(run.peer.next(), Some(ToServer::Slot));
    run.conclude(true);
}

#[test]
fn what_is_said_stands_below_who_asked() {
    let mut run = Run::new(
        Program::Redo,
        "-k x",
        &[("x.do", "redo-ifchange y\necho out >&2\n")],
    );
    let order = run.script(1, "x");
    run.order(order);
    let mut inner = Peer::accepted(&run.listener);
    inner.call();
    let path = bytes(&run.tree.path("d/y\n"));
    let no_rule = Said {
        asker: Some(1),
        what: Say::NoRule(path.clone()),
    };
    run.peer.send(&ToProgram::Say(no_rule));
    let by_hand = Said {
        asker: None,
        what: Say::ByHand(path),
    };
    run.peer.send(&ToProgram::Say(by_hand));
    run.peer.send(&ToProgram::Error(
        b"redo: waiting for z, which another redo builds".to_vec(),
    ));
    inner.send(&ToProgram::End { status: 1 });
    run.expect_end(1, false);
    let (done, _) = run.conclude(false);
    let lines = [
        "redo  x",
        "redo: there is no rule to make d/y\\x0A",
        "redo: d/y\\x0A was changed by hand: it stays as it is",
        "redo: waiting for z, which another redo builds",
        "redo: 2 failures:",
        "redo:   there is no rule to make d/y\\x0A",
        "redo:   x: status 1",
    ];
    // The run may see the script's end before it has read all that it was sent.
    let end = "redo: x: status 1\n";
    let (before, after) = done.errors.split_once(end).unwrap();
    assert!(after.contains("redo: 2 failures:"), "{done:?}");
    assert_eq!([before, after].concat(), lines.join("\n") + "\n");
    assert_eq!((done.status, done.output.as_str()), (1, ""));
}

const UNTIL_STOPPED: &str = "trap 'echo stopped >stopped; exit 1' TERM\n>begun\n\
                             while :; do sleep 0.01; done\n";

fn with_running_script() -> Run {
    let mut run = Run::new(Program::Redo, "x", &[("x.do", UNTIL_STOPPED)]);
    let order = run.script(1, "x");
    run.order(order);
    until("x begins", || run.tree.path("begun").exists());
    run
}

#[test]
fn a_signal_ends_the_scripts_and_then_the_run() {
    let mut run = with_running_script();
    let process = run.child.id().to_string();
    assert!(Command::new("kill")
        .args(["-TERM", &process])
        .status()
        .unwrap()
        .success());
    run.expect_end(1, false);
    let order = run.script(2, "y");
    run.order(order);
    let done = finished(run.child);
    assert_eq!(done.status, -libc::SIGTERM);
    assert!(done.errors.starts_with("redo  x\n"), "{done:?}");
    assert!(run.tree.path("stopped").exists());
    let mut left: Vec<_> = fs::read_dir(&run.tree.0)
        .unwrap()
        .map(|entry| entry.unwrap().file_name().into_string().unwrap())
        .collect();
    left.sort();
    assert_eq!(left, [".redo", "begun", "bin", "stopped", "x.do"]);
}

#[test]
fn a_run_whose_server_ends_is_over() {
    let run = with_running_script();
    drop(run.peer);
    let done = finished(run.child);
    assert_eq!(done.status, 1);
    assert!(
        done.errors.contains("redo: the server has ended\n"),
        "{done:?}"
    );
    assert!(run.tree.path("stopped").exists());
}

#[test]
fn a_run_ends_if_the_server_says_so() {
    let mut run = with_running_script();
    run.peer.send(&ToProgram::Error(
        b"redo: the log can't be written".to_vec(),
    ));
    run.peer.send(&ToProgram::Stop);
    run.expect_end(1, false);
    assert_eq!(run.peer.next(), None);
    let done = finished(run.child);
    assert_eq!(done.status, 1);
    assert!(
        done.errors.contains("redo: the log can't be written\n"),
        "{done:?}"
    );
}

#[test]
fn a_run_whose_server_reads_nothing_says_so_once() {
    let change = |command: &mut Command| {
        command.env("REDO_PATIENCE", "0.1");
    };
    let scripts = [("x.do", "echo x\n"), ("y.do", "sleep 0.9\n")];
    let mut run = Run::with(Program::Redo, "x y", &scripts, change);
    run.tree.write(".redo/server/lock", "9");
    let orders = [run.script(1, "x"), run.script(2, "y")];
    orders.into_iter().for_each(|order| run.order(order));
    until("x is built", || run.tree.path("x").exists());
    thread::sleep(Duration::from_millis(600));
    run.expect_end(1, true);
    run.expect_end(2, true);
    let line = format!(
        "redo: waiting for the server of {} (process 9)\n",
        run.tree.0.display()
    );
    let (done, _) = run.conclude(true);
    assert_eq!(done.errors.matches(&line).count(), 1, "{done:?}");
}

#[test]
fn logs_are_not_kept_where_that_is_asked_for() {
    let mut run = Run::new(
        Program::Redo,
        "--no-log -x x",
        &[("x.do", "echo words >&2\n")],
    );
    let order = run.script(1, "x");
    run.order(order);
    run.expect_end(1, true);
    let (done, tree) = run.conclude(true);
    assert_eq!(done, ended(0, "", "redo  x\n+ echo words\nwords\n"));
    let logged = support::run(tree.program("redo-log").arg("x"));
    assert_eq!(logged, ended(1, "", "redo-log: x has no log\n"));
}

#[test]
fn a_message_that_is_none_ends_the_run() {
    let mut run = with_running_script();
    run.peer.socket.write_all(&[1, 0, 0, 0, 99]).unwrap();
    run.expect_end(1, false);
    let done = finished(run.child);
    let line = "redo: not a message of the server: no kind of message: 99\n";
    assert_eq!(done.status, 1);
    assert!(done.errors.ends_with(line), "{done:?}");
    assert!(!run.tree.path("x.redo.1.out").exists());
}
