//! Programs that mean harm, or are about to end: they hold nobody up, take little of the server's
//! memory, and leave no open file. They speak frames, as `redo` and what scripts call do; those that
//! speak lines are in `python/tests/test_hostile.py`.

mod common;

use std::fs;
use std::io::{Read, Write};
use std::os::unix::net::UnixStream;
use std::process::Command;
use std::thread;
use std::time::{Duration, Instant};

use common::link::{send, Link};
use common::{Tree, RUNS};
use redo_wire::{Call, FrameBuffer, Program, ToProgram, ToServer, MOST_BODY, OPENING};

const LONGEST: Duration = Duration::from_secs(20);
/// So many MiB may a server take, whoever sends it little that lasts.
const LITTLE: u64 = 64;
/// So many MiB may it take, whoever sends or asks much, and reads nothing.
const BOUND: u64 = 320;
const MOST_FILES: &str = "--nofile=4096:";

/// A tree, whose server may have many files open, as this process may.
fn tree() -> Tree {
    let own = std::process::id().to_string();
    let raised = Command::new("prlimit")
        .args(["--pid", &own, MOST_FILES])
        .status();
    assert!(raised.unwrap().success());
    let tree = Tree::new();
    tree.write("default.do", "ifchange src\ncat src");
    tree.write("src", "1");
    tree
}

fn server(tree: &Tree) -> String {
    tree.read(".redo/server/lock").trim().to_owned()
}

/// The most that the server took, in MiB.
fn memory(tree: &Tree) -> u64 {
    let status = fs::read_to_string(format!("/proc/{}/status", server(tree))).unwrap();
    let line = status.lines().find(|line| line.starts_with("VmHWM:"));
    let kilobytes = line.unwrap().split_whitespace().nth(1).unwrap();
    kilobytes.parse::<u64>().unwrap() / 1024
}

/// How many files the server has open.
fn files(tree: &Tree) -> usize {
    fs::read_dir(format!("/proc/{}/fd", server(tree)))
        .unwrap()
        .count()
}

/// How long the server has worked, in ticks.
fn worked(tree: &Tree) -> u64 {
    let stat = fs::read_to_string(format!("/proc/{}/stat", server(tree))).unwrap();
    let (_, fields) = stat.rsplit_once(')').unwrap();
    let fields: Vec<&str> = fields.split_whitespace().collect();
    [11, 12]
        .map(|field| fields[field].parse::<u64>().unwrap())
        .iter()
        .sum()
}

fn eventually(holds: impl Fn() -> bool) -> bool {
    let end = Instant::now() + LONGEST;
    while !holds() {
        if Instant::now() > end {
            return false;
        }
        thread::sleep(Duration::from_millis(5));
    }
    true
}

fn connect(tree: &Tree) -> UnixStream {
    UnixStream::connect(tree.at(".redo/server/socket")).unwrap()
}

/// Whether a server still answers, and builds.
fn serves(tree: &Tree) -> bool {
    tree.ask(Program::Targets, &[]).1 == 0 && tree.redo(&["t"]).right == Some(true)
}

/// Sends as much of the bytes as goes before the server has ended the connection.
fn pour(socket: &mut UnixStream, bytes: &[u8]) -> bool {
    socket.write_all(bytes).is_ok()
}

/// A call as its frame, after the byte that opens the connection.
fn opened(call: Call) -> Vec<u8> {
    let mut bytes = vec![OPENING];
    ToServer::Call(Box::new(call)).encode(&mut bytes).unwrap();
    bytes
}

#[test]
fn a_gigabyte_of_a_program_is_not_read_to_its_end() {
    let tree = tree();
    let mut socket = connect(&tree);
    assert!(pour(
        &mut socket,
        &[&[OPENING], &u32::MAX.to_le_bytes()[..]].concat()
    ));
    let block = vec![b'a'; 1 << 20];
    assert!((0..1024).any(|_| !pour(&mut socket, &block)));
    assert!(serves(&tree));
    assert!(memory(&tree) < LITTLE, "{}", memory(&tree));
}

#[test]
fn frames_that_never_end_are_bounded() {
    let tree = tree();
    let length = u32::try_from(MOST_BODY).unwrap().to_le_bytes();
    let bytes = [&[OPENING], &length[..], &vec![1; MOST_BODY - 1]].concat();
    let mut sockets: Vec<UnixStream> = (0..110).map(|_| connect(&tree)).collect();
    for socket in &mut sockets {
        pour(socket, &bytes);
    }
    assert!(serves(&tree));
    assert!(memory(&tree) < BOUND, "{}", memory(&tree));
}

#[test]
fn calls_that_wait_are_bounded() {
    let tree = tree();
    tree.write("slow.do", "wait go");
    let mut all: Vec<Link> = (0..RUNS).map(|_| tree.link()).collect();
    for link in &mut all {
        link.call(tree.call(Program::Redo, &["slow"], None));
    }
    let mut call = tree.call(Program::Redo, &["t"], None);
    let many = vec![Vec::new(); MOST_BODY / 4 - 100]; // each needs more than the frame has
    let long = vec![vec![b'x'; MOST_BODY - 1000]];
    for number in 0..48 {
        let texts = if number < 8 { &many } else { &long };
        call.surroundings.environment = texts.clone();
        let mut link = tree.link();
        link.call(call.clone());
        all.push(link);
    }
    assert_eq!(tree.ask(Program::Targets, &[]).1, 0);
    assert!(memory(&tree) < BOUND, "{}", memory(&tree));
    drop(all);
    assert!(serves(&tree));
}

#[test]
fn a_thousand_connections_hold_nobody_up() {
    let tree = tree();
    assert!(serves(&tree));
    let before = files(&tree);
    let begun = opened(tree.call(Program::Redo, &["t"], None));
    let parts: [&[u8]; 4] = [b"", b"1 state", &begun[..1], &begun[..begun.len() - 1]];
    let mut sockets: Vec<UnixStream> = (0..1000).map(|_| connect(&tree)).collect();
    for (number, socket) in sockets.iter_mut().enumerate() {
        assert!(pour(socket, parts[number % parts.len()]));
    }
    assert_eq!(tree.ask(Program::Targets, &[]).1, 0);
    assert!(eventually(|| files(&tree) > 1000), "{}", files(&tree));
    let work = worked(&tree);
    thread::sleep(Duration::from_millis(500));
    assert!(worked(&tree) - work < 10);
    assert!(memory(&tree) < LITTLE, "{}", memory(&tree));
    drop(sockets);
    assert!(serves(&tree));
    assert!(eventually(|| files(&tree) <= before), "{}", files(&tree));
}

#[test]
fn who_ends_in_the_middle_leaves_nothing() {
    let tree = tree();
    assert!(serves(&tree));
    let before = files(&tree);
    let whole = opened(tree.call(Program::Redo, &["t"], None));
    let ask = opened(tree.call(Program::Targets, &[], None));
    for number in 0..400 {
        let mut socket = connect(&tree);
        let text = if number % 2 == 0 { &whole } else { &ask };
        let length = match number % 5 {
            0 => text.len(),
            _ => number * 7 % text.len(),
        };
        pour(&mut socket, &text[..length]);
    }
    assert!(serves(&tree));
    assert!(eventually(|| files(&tree) <= before), "{}", files(&tree));
}

#[test]
fn answers_that_nobody_reads_are_bounded() {
    let tree = tree();
    let option = format!("--{}", "x".repeat(MOST_BODY / 2));
    let call = tree.call(Program::Redo, &[&option], None);
    let mut deaf: Vec<Link> = (0..200).map(|_| tree.link()).collect();
    for link in &mut deaf {
        link.call(call.clone());
    }
    assert_eq!(tree.ask(Program::Targets, &[]).1, 0);
    assert!(memory(&tree) < BOUND, "{}", memory(&tree));
    let is_whole = |text: &[u8]| text.len() > MOST_BODY / 2;
    let told = deaf.iter_mut().filter_map(Link::message);
    let whole = told.filter(|one| matches!(one, ToProgram::Error(text) if is_whole(text)));
    assert!(whole.count() > 10, "those who read after all get all");
    drop(deaf);
    assert!(serves(&tree));
}

#[test]
fn a_slow_reader_gets_all_and_holds_nobody_up() {
    let tree = tree();
    let words = vec!["x".repeat(240); 8000];
    let words: Vec<&str> = words.iter().map(String::as_str).collect();
    let mut socket = connect(&tree);
    let call = tree.call(Program::Why, &words, None);
    assert!(pour(&mut socket, &opened(call)));
    let mut told = vec![0; 10_000];
    for part in told.chunks_mut(10) {
        socket.read_exact(part).unwrap();
    }
    assert!(serves(&tree));
    socket.set_read_timeout(Some(LONGEST)).unwrap();
    socket.read_to_end(&mut told).unwrap();
    let text = printed(&told);
    assert_eq!(text.lines().count(), words.len());
    assert!(text.lines().all(|line| line.starts_with(words[0])));
}

/// What a program prints that was told this.
fn printed(told: &[u8]) -> String {
    let greeting = told.iter().position(|byte| *byte == b'\n').unwrap() + 1;
    let is_greeted = told.starts_with(b"session ");
    let mut frames = FrameBuffer::default();
    frames.push(&told[if is_greeted { greeting } else { 0 }..]);
    let bodies = std::iter::from_fn(|| frames.next_body().unwrap());
    let output = bodies.map(|body| match ToProgram::decode(&body).unwrap() {
        ToProgram::Output(text) => String::from_utf8(text).unwrap(),
        _ => String::new(),
    });
    output.collect()
}

#[test]
fn a_call_that_comes_byte_by_byte_is_answered() {
    let tree = tree();
    let mut socket = connect(&tree);
    let bytes = opened(tree.call(Program::Why, &["t"], None));
    for (number, byte) in bytes.iter().enumerate() {
        assert!(pour(&mut socket, &[*byte]));
        if number % 50 == 0 {
            assert!(serves(&tree));
        }
    }
    socket.set_read_timeout(Some(LONGEST)).unwrap();
    let mut told = Vec::new();
    socket.read_to_end(&mut told).unwrap();
    let text = String::from_utf8_lossy(&told);
    assert!(text.contains("t is up to date"), "{text}");
}

#[test]
fn a_run_that_sends_slots_without_end_and_reads_nothing_is_bounded() {
    let tree = tree();
    tree.write("slow.do", "wait go");
    let mut link = tree.link();
    link.call(tree.call(Program::Redo, &["slow"], None));
    assert!(matches!(link.message(), Some(ToProgram::Run(_))));
    let mut frame = Vec::new();
    ToServer::Slot.encode(&mut frame).unwrap();
    let block = frame.repeat(10_000);
    link.socket.set_nonblocking(true).unwrap();
    let (end, mut sent) = (Instant::now() + Duration::from_secs(3), 0);
    while Instant::now() < end && sent < 64 << 20 {
        match link.socket.write(&block[sent % frame.len()..]) {
            Ok(count) => sent += count,
            Err(cause) if cause.kind() == std::io::ErrorKind::WouldBlock => {
                thread::sleep(Duration::from_millis(1));
            }
            Err(_) => break,
        }
    }
    assert!(serves(&tree));
    assert!(memory(&tree) < BOUND, "{}", memory(&tree));
    send(&mut link.socket, &ToServer::Close);
}
