//! Programs that scripts call: what they send, what they print, and their status.

use std::fs;
use std::io::Write;
use std::process::{Command, Stdio};
use std::thread;

use redo_wire::{Program, ToProgram};

#[allow(dead_code)]
mod support;
use support::{begun, bytes, ended, finished, run, served, spawned, until, words, Peer, Tree};

const END: ToProgram = ToProgram::End { status: 0 };

fn error(text: &str) -> ToProgram {
    ToProgram::Error(text.as_bytes().to_vec())
}

#[test]
fn each_program_sends_its_words_and_the_task_of_its_script() {
    let cases = [
        (Program::Redo, "-k a"),
        (Program::IfChange, "a ../b"),
        (Program::IfCreate, "c"),
        (Program::Always, ""),
        (Program::Always, "wrong -x"),
    ];
    for (program, text) in cases {
        let tree = Tree::new();
        let server = tree.serve(vec![vec![END]]);
        let mut command = tree.script_program(program.name(), u64::MAX);
        let done = run(command.args(text.split_whitespace()));
        assert_eq!(done, ended(0, "", ""));
        let call = server.call();
        assert_eq!((call.program, call.words), (program, words(text)));
        assert_eq!((call.task, call.content), (Some(u64::MAX), None));
        assert_eq!((call.folder, call.terminal), (bytes(&tree.0), false));
    }
}

#[test]
fn a_call_has_what_scripts_inherit() {
    let tree = Tree::new();
    let server = tree.serve(vec![vec![END]]);
    let script = "umask 031; ulimit -n 77; unset HOME; exec \"$@\"";
    let mut command = Command::new("sh");
    command.args([
        "-c",
        script,
        "sh",
        "env",
        "-i",
        "A=1",
        "B=x y\n=",
        "REDO_TASK=3",
    ]);
    command.arg(format!("REDO_SOCKET={}", tree.socket().display()));
    command.args([
        "bash",
        "-c",
        "exec -a redo-ifchange \"$0\" x",
        env!("CARGO_BIN_EXE_redo"),
    ]);
    command.current_dir(&tree.0);
    assert_eq!(run(&mut command), ended(0, "", ""));
    let call = server.call();
    let environment = &call.surroundings.environment;
    for variable in ["A=1", "B=x y\n=", "REDO_TASK=3"] {
        assert!(
            environment.contains(&variable.as_bytes().to_vec()),
            "{variable}"
        );
    }
    assert!(!environment
        .iter()
        .any(|variable| variable.starts_with(b"HOME=")));
    assert_eq!(call.surroundings.umask, 0o31);
    let files = call.surroundings.limits[libc::RLIMIT_NOFILE as usize];
    assert_eq!((files.soft, files.hard), (77, 77));
}

#[test]
fn redo_stamp_sends_the_digest_of_its_input() {
    let tree = Tree::new();
    let server = tree.serve(vec![vec![END]]);
    let mut child = begun(tree.script_program("redo-stamp", 1).stdin(Stdio::piped()));
    child.stdin.take().unwrap().write_all(b"abc").unwrap();
    assert_eq!(finished(child), ended(0, "", ""));
    let digest = server.call().content.unwrap().0;
    let digits: String = digest.iter().map(|byte| format!("{byte:02x}")).collect();
    // the example of FIPS 180-4
    assert_eq!(
        digits,
        "ba7816bf8f01cfea414140de5dae2223b00361a396177a9cb410ff61f20015ad"
    );
}

#[test]
fn what_the_server_says_is_printed() {
    let tree = Tree::new();
    let answer = vec![
        error("redo-ifcreate: x is there already"),
        ToProgram::Output(b"text".to_vec()),
        error("more"),
        ToProgram::End { status: 1 },
    ];
    let server = tree.serve(vec![answer]);
    let done = run(tree.script_program("redo-ifcreate", 1).arg("x"));
    assert_eq!(
        done,
        ended(1, "text", "redo-ifcreate: x is there already\nmore\n")
    );
    server.call();
}

#[test]
fn a_server_that_ends_and_one_that_is_not_there_are_failures() {
    let tree = Tree::new();
    let server = tree.serve(vec![vec![error("words")]]);
    let done = run(tree.script_program("redo-always", 1).arg("x"));
    let ends = "words\nredo-always: the redo that runs this .do file has ended\n";
    assert_eq!(done, ended(1, "", ends));
    server.call();
    let done = run(tree.script_program("redo", 1).arg("x"));
    let about = "redo: the redo that runs this .do file can't be reached: ";
    assert_eq!(done, ended(1, "", &format!("{about}Connection refused\n")));
    fs::remove_file(tree.socket()).unwrap();
    let done = run(&mut tree.script_program("redo-ifchange", 1));
    assert!(
        done.errors
            .ends_with(" can't be reached: No such file or directory\n"),
        "{done:?}"
    );
}

#[test]
fn the_path_of_a_socket_may_be_long() {
    let tree = Tree::new();
    let server = tree.serve(vec![vec![END]]);
    let mut name = "long".repeat(30);
    name.push('/');
    fs::create_dir(tree.path(&name)).unwrap();
    let socket = tree.path(&format!("{name}../.redo/server/socket"));
    assert!(socket.as_os_str().len() > 120);
    let done = run(tree
        .script_program("redo-ifchange", 1)
        .env("REDO_SOCKET", socket));
    assert_eq!(done, ended(0, "", ""));
    server.call();
}

#[test]
fn who_waits_for_a_server_that_reads_nothing_says_so_once() {
    let tree = Tree::new();
    let listener = tree.listen();
    tree.write(".redo/server/lock", "4711\n");
    let errors = fs::File::create(tree.path("errors")).unwrap();
    let mut command = tree.script_program("redo-ifchange", 1);
    command.env("REDO_PATIENCE", "0.05").stderr(errors);
    let child = spawned(command.stdout(Stdio::null()));
    let line = format!(
        "redo: waiting for the server of {} (process 4711)\n",
        tree.0.display()
    );
    let said = || fs::read_to_string(tree.path("errors")).unwrap();
    until("a line", || said() == line);
    served(&listener, b"", vec![END]);
    assert!(child.wait_with_output().unwrap().status.success());
    assert_eq!(said(), line);
}

#[test]
fn who_waits_for_a_build_says_nothing() {
    let tree = Tree::new();
    let listener = tree.listen();
    let child = begun(
        tree.script_program("redo-ifchange", 1)
            .env("REDO_PATIENCE", "0.05"),
    );
    let mut peer = Peer::accepted(&listener);
    peer.call();
    thread::sleep(std::time::Duration::from_millis(800));
    peer.send(&END);
    assert_eq!(finished(child), ended(0, "", ""));
}

#[test]
fn closed_standard_files_do_no_harm() {
    let tree = Tree::new();
    let server = tree.serve(vec![vec![error("text"), END]]);
    let mut command = Command::new("sh");
    let program = format!("exec -a redo-ifchange {} x", env!("CARGO_BIN_EXE_redo"));
    command.args(["-c", &format!("bash -c '{program}' <&- >&- 2>&-")]);
    command
        .env("REDO_TASK", "1")
        .env("REDO_SOCKET", tree.socket());
    assert_eq!(run(&mut command), ended(0, "", ""));
    server.call();
}
