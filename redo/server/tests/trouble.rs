//! What goes wrong: programs that don't speak as they should, other clients, a database that ends.

mod common;

use std::io::{Read, Write};
use std::net::Shutdown;
use std::os::unix::net::UnixStream;
use std::time::Duration;

use common::link::{send, Link};
use common::run::{stamp_of, Playing, Ran};
use common::{Tree, RUNS};
use redo_wire::{FrameBuffer, Program, ToProgram, ToServer, OPENING, VERSION};

fn tree() -> Tree {
    let tree = Tree::new();
    tree.write("default.do", "ifchange src\ncat src");
    tree.write("src", "1");
    tree
}

/// Whether a server still builds.
fn builds(tree: &Tree) -> bool {
    tree.redo(&["t"]).right == Some(true)
}

/// Sends bytes, and returns the messages until the end of the connection.
fn answer(tree: &Tree, bytes: &[u8]) -> Vec<ToProgram> {
    let mut socket = UnixStream::connect(tree.at(".redo/server/socket")).unwrap();
    socket
        .set_read_timeout(Some(Duration::from_secs(20)))
        .unwrap();
    let _ = socket.write_all(bytes); // a server that has read enough may close it
    let mut told = Vec::new();
    let _ = socket.read_to_end(&mut told); // it is reset if not all was read
    let text = told.strip_prefix(b"session 1\n").unwrap_or(&told);
    let mut frames = FrameBuffer::default();
    frames.push(text);
    std::iter::from_fn(|| frames.next_body().unwrap())
        .map(|body| ToProgram::decode(&body).unwrap())
        .collect()
}

fn is_refused(messages: &[ToProgram], text: &str) -> bool {
    match messages {
        [ToProgram::Error(line), ToProgram::End { status: 2 }] => {
            String::from_utf8_lossy(line).contains(text)
        }
        _ => false,
    }
}

fn frame(body: &[u8]) -> Vec<u8> {
    let length = u32::try_from(body.len()).unwrap();
    [&[OPENING], &length.to_le_bytes()[..], body].concat()
}

#[test]
fn what_is_no_message_ends_that_connection_alone() {
    let tree = tree();
    let run = Playing::new(&tree);
    let version = [&[1], &(VERSION + 1).to_le_bytes()[..]].concat();
    for (bytes, text) in [
        (frame(b"\xff"), "no kind of message: 255"),
        (frame(b""), "ends too early"),
        (frame(b"\x02"), "a message out of place"),
        (frame(&version), "version"),
        (vec![OPENING, 255, 255, 255, 255], "over 4194304"),
    ] {
        let messages = answer(&tree, &bytes);
        assert!(is_refused(&messages, text), "{messages:?}");
    }
    assert_eq!(
        run.run(tree.call(Program::Redo, &["t"], None)).right,
        Some(true)
    );
}

#[test]
fn a_second_call_and_an_end_of_no_script_are_refused() {
    let tree = tree();
    let call = tree.call(Program::Redo, &["t"], None);
    for second in [
        ToServer::Call(Box::new(call.clone())),
        ToServer::Ended {
            task: 77,
            ok: false,
            stamp: None,
        },
    ] {
        let mut link = tree.link();
        link.call(call.clone());
        assert!(matches!(link.message(), Some(ToProgram::Run(_))));
        send(&mut link.socket, &second);
        let told: Vec<ToProgram> = std::iter::from_fn(|| link.message()).collect();
        assert!(
            matches!(told.last(), Some(ToProgram::End { status: 2 })),
            "{told:?}"
        );
        assert!(builds(&tree));
    }
}

#[test]
fn a_call_that_is_cut_off_is_forgotten() {
    let tree = tree();
    let mut whole = vec![OPENING];
    let call = tree.call(Program::Redo, &["t"], None);
    ToServer::Call(Box::new(call)).encode(&mut whole).unwrap();
    for length in 0..whole.len() {
        let mut socket = UnixStream::connect(tree.at(".redo/server/socket")).unwrap();
        socket.write_all(&whole[..length]).unwrap();
    }
    assert!(builds(&tree));
}

#[test]
fn drawn_bytes_do_no_harm() {
    let tree = tree();
    let mut state = 1_u64;
    let mut draw = || {
        state = state
            .wrapping_mul(6364136223846793005)
            .wrapping_add(1442695040888963407);
        (state >> 33) as u8
    };
    for _ in 0..300 {
        let body: Vec<u8> = (0..draw()).map(|_| draw()).collect();
        let kind = [1 + draw() % 4];
        let messages = answer(&tree, &frame(&[&kind[..], &body].concat()));
        assert!(
            is_refused(&messages, "redo: the server was sent"),
            "{messages:?}"
        );
    }
    assert!(builds(&tree));
}

#[test]
fn a_task_that_is_not_there_is_told_so() {
    let tree = tree();
    let mut link = tree.link();
    link.call(tree.call(Program::IfChange, &["t"], Some(5)));
    let line = b"redo-ifchange: its .do file has ended".to_vec();
    assert_eq!(link.message(), Some(ToProgram::Error(line)));
    assert_eq!(link.message(), Some(ToProgram::End { status: 1 }));
}

#[test]
fn names_that_cannot_be_are_told() {
    let tree = tree();
    tree.write("inner/.redo/x", "");
    for (word, text) in [
        ("", "empty"),
        ("inner/x", "inner"),
        (&"x".repeat(300), "255"),
    ] {
        let ran = tree.ifchange(&[word]);
        assert_eq!(ran.right, Some(false), "{word}");
        assert!(ran.said[0].starts_with("redo-ifchange: "), "{:?}", ran.said);
        assert!(ran.said[0].contains(text), "{:?}", ran.said);
    }
}

#[test]
fn a_lock_of_another_client_is_waited_for() {
    let tree = tree();
    let mut other = UnixStream::connect(tree.at(".redo/server/socket")).unwrap();
    other.write_all(b"1 lock t\n").unwrap();
    let mut told = [0; 64];
    let mut count = 0;
    while !told[..count].ends_with(b"granted 1\n") {
        count += other.read(&mut told[count..]).unwrap();
    }
    let mut link = tree.link();
    let mut call = tree.call(Program::IfChange, &["t"], None);
    let patience = b"REDO_PATIENCE=0.1".to_vec();
    call.surroundings.environment.push(patience);
    link.call(call);
    let shown = |path: &[u8]| path.to_vec();
    let line = match link.message() {
        Some(ToProgram::Say(said)) => said.what.line(shown),
        other => panic!("{other:?}"),
    };
    let line = String::from_utf8(line).unwrap();
    assert_eq!(line, "waiting for t, which another program has locked");
    other.shutdown(Shutdown::Both).unwrap();
    let next = link.message();
    assert!(matches!(next, Some(ToProgram::Run(_))), "{next:?}");
    drop(link);
    assert!(builds(&tree));
}

#[test]
fn a_command_that_the_database_refuses_ends_the_run() {
    let mut tree = tree();
    tree.restart_with_edited_answers("s/ start t => ok$/ fault memory/");
    let mut link = tree.link();
    link.call(tree.call(Program::IfChange, &["t"], None));
    let mut said = Vec::new();
    loop {
        match link.message() {
            Some(ToProgram::Say(one)) => said.push(one.what.line(|path| path.to_vec())),
            Some(ToProgram::Stop) => break,
            Some(_) => {}
            None => panic!("{said:?}"),
        }
    }
    assert_eq!(
        said,
        [b"the database has a fault: start t => fault memory".to_vec()]
    );
}

/// Starts another server whose database answers otherwise, and returns what a call is told of it.
fn told_of_database(tree: &mut Tree, edit: &str) -> String {
    tree.restart_with_edited_answers(edit);
    let mut link = tree.link();
    link.call(tree.call(Program::IfChange, &["t"], None));
    match link.message() {
        Some(ToProgram::Error(line)) => String::from_utf8(line).unwrap(),
        other => panic!("{other:?}"),
    }
}

#[test]
fn a_question_that_the_database_does_not_answer_fails() {
    for (words, question) in [
        (&["--users", "t"][..], "users t"),
        (&["--json", "--users", "t"], "users t"),
        (&["t"], "why t"),
        (&[], "ood"),
    ] {
        let mut tree = tree();
        assert!(builds(&tree));
        let edit = format!("s/ {question} => .*/ fault memory/");
        tree.restart_with_edited_answers(&edit);
        let program = if words.is_empty() {
            Program::Ood
        } else {
            Program::Why
        };
        let line = format!(
            "{}: the database has a fault: {question} => fault memory",
            program.name()
        );
        assert_eq!(tree.ask(program, words), (line, 1));
        assert!(builds(&tree));
    }
}

#[test]
fn what_depends_on_a_name_of_any_length_is_told() {
    let tree = Tree::new();
    for length in [246, 247, 255] {
        let name = format!("{}/{}", "d".repeat(120), "f".repeat(length - 121));
        tree.write(&name, "1");
        tree.write("t.do", &format!("ifchange {name}\ncat {name}"));
        assert!(builds(&tree));
        let told = format!("t is built from {name}\n");
        assert_eq!(tree.ask(Program::Why, &["--users", &name]), (told, 0));
    }
}

#[test]
fn a_database_that_does_not_say_what_it_knows_ends_the_server() {
    for (edit, text) in [
        ("s/ names => .*/ fault memory/", "b'fault memory'"),
        ("s/ names => .*/ names => 7 t 5/", "b'7 t 5'"),
    ] {
        let mut tree = tree();
        assert!(builds(&tree));
        let line = told_of_database(&mut tree, edit);
        let end = format!("not what redodb-live knows: {text}");
        assert!(line.ends_with(&end), "{line}");
    }
}

#[test]
fn an_older_database_is_said_to_be_older() {
    for answer in ["0 fault bad-session", "1024 fault unknown-command"] {
        let mut tree = tree();
        let edit = format!("s/^1024 names => .*/{answer}/");
        let line = told_of_database(&mut tree, &edit);
        assert!(
            line.ends_with("redodb-live is older than redo-server"),
            "{line}"
        );
    }
}

#[test]
fn a_database_that_ends_stops_all() {
    let tree = tree();
    tree.write("t.do", "wait go");
    let mut link = tree.link();
    link.call(tree.call(Program::Redo, &["t"], None));
    assert!(matches!(link.message(), Some(ToProgram::Run(_))));
    tree.kill_database();
    assert!(matches!(link.message(), Some(ToProgram::Error(_))));
    assert_eq!(link.message(), Some(ToProgram::Stop));
    drop(link);
}

#[test]
fn a_server_whose_database_ended_takes_nobody_more() {
    let tree = tree();
    tree.write("t.do", "wait go");
    let (mut deaf, mut link) = (tree.link(), tree.link());
    let option = format!("--{}", "x".repeat(1 << 21));
    deaf.call(tree.call(Program::Redo, &[&option], None));
    link.call(tree.call(Program::Redo, &["t"], None));
    assert!(matches!(link.message(), Some(ToProgram::Run(_))));
    tree.kill_database();
    assert!(matches!(link.message(), Some(ToProgram::Error(_))));
    assert!(!tree.at(".redo/server/socket").exists());
}

#[test]
fn a_program_that_goes_lets_the_script_go_on() {
    let tree = tree();
    tree.write("slow.do", "wait go\necho slow");
    let mut run = tree.link();
    run.call(tree.call(Program::Redo, &["t"], None));
    let task = task_of(run.message());
    let mut asking = tree.link();
    asking.call(tree.call(Program::IfChange, &["slow"], Some(task)));
    let slow = task_of(run.message());
    drop(asking);
    tree.write("slow", "slow");
    let stamp = Some(stamp_of(&tree.at("slow")));
    send(
        &mut run.socket,
        &ToServer::Ended {
            task: slow,
            ok: true,
            stamp,
        },
    );
    send(
        &mut run.socket,
        &ToServer::Ended {
            task,
            ok: true,
            stamp: None,
        },
    );
    let answer = std::iter::from_fn(|| run.message())
        .find(|message| matches!(message, ToProgram::Answer { .. }));
    assert_eq!(answer, Some(ToProgram::Answer { right: true }));
}

#[test]
fn what_a_run_would_do_is_told() {
    let tree = tree();
    assert_eq!(
        tree.ask(Program::Redo, &["-n", "t"]),
        ("redo  t\n".to_owned(), 0)
    );
    assert_eq!(tree.redo(&["t"]).scripts, ["t"]);
    assert_eq!(tree.ask(Program::IfChange, &["t"]), (String::new(), 0));
    tree.write("src", "2");
    assert_eq!(
        tree.ask(Program::Redo, &["-n", "t"]),
        ("redo  t\n".to_owned(), 0)
    );
    assert_eq!(tree.read("t"), "1");
}

#[test]
fn questions_need_no_session() {
    let tree = tree();
    let all: Vec<Link> = (0..RUNS).map(|_| tree.link()).collect();
    let mut told = Vec::new();
    for mut link in all {
        link.call(tree.call(Program::Redo, &["t"], None));
        told.push(link);
    }
    assert_eq!(tree.ask(Program::Targets, &[]).1, 0);
    drop(told);
    let ran: Ran = tree.redo(&["t"]);
    assert_eq!(ran.right, Some(true));
}

fn task_of(message: Option<ToProgram>) -> u64 {
    match message {
        Some(ToProgram::Run(script)) => script.task,
        Some(ToProgram::Want { .. }) => panic!("a wish for slots"),
        other => panic!("{other:?}"),
    }
}
