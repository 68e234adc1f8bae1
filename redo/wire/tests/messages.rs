//! Each message goes both ways.

use redo_wire::{FrameBuffer, Say, ToProgram, ToServer, WireError};

mod samples;
use samples::{bodies, text, to_program, to_server};

#[test]
fn each_message_to_the_server_is_read_as_it_was_written() {
    let mut sent = Vec::new();
    for message in to_server() {
        message.encode(&mut sent).unwrap();
    }
    let read: Vec<ToServer> = bodies(&sent)
        .iter()
        .map(|body| ToServer::decode(body).unwrap())
        .collect();
    assert_eq!(read, to_server());
}

#[test]
fn each_message_to_a_program_is_read_as_it_was_written() {
    let mut sent = Vec::new();
    for message in to_program() {
        message.encode(&mut sent).unwrap();
    }
    let read: Vec<ToProgram> = bodies(&sent)
        .iter()
        .map(|body| ToProgram::decode(body).unwrap())
        .collect();
    assert_eq!(read, to_program());
}

#[test]
fn the_bytes_are_those_of_the_description() {
    let mut sent = Vec::new();
    ToServer::Ended {
        task: 0x0102,
        ok: true,
        stamp: None,
    }
    .encode(&mut sent)
    .unwrap();
    ToProgram::Output(text("ab")).encode(&mut sent).unwrap();
    let ended = [11, 0, 0, 0, 3, 2, 1, 0, 0, 0, 0, 0, 0, 1, 0];
    let output = [7, 0, 0, 0, 2, 2, 0, 0, 0, b'a', b'b'];
    assert_eq!(sent, [ended.as_slice(), &output].concat());
}

#[test]
fn a_message_that_is_cut_is_no_message() {
    for message in to_server() {
        let mut sent = Vec::new();
        message.encode(&mut sent).unwrap();
        for end in 4..sent.len() {
            assert_eq!(ToServer::decode(&sent[4..end]), Err(WireError::Short));
        }
    }
    for message in to_program() {
        let mut sent = Vec::new();
        message.encode(&mut sent).unwrap();
        for end in 4..sent.len() {
            assert_eq!(ToProgram::decode(&sent[4..end]), Err(WireError::Short));
        }
    }
}

#[test]
fn a_message_with_more_behind_it_is_no_message() {
    for message in to_server() {
        let mut sent = Vec::new();
        message.encode(&mut sent).unwrap();
        sent.push(0);
        assert_eq!(ToServer::decode(&sent[4..]), Err(WireError::Rest(1)));
    }
    for message in to_program() {
        let mut sent = Vec::new();
        message.encode(&mut sent).unwrap();
        sent.extend([1, 2]);
        assert_eq!(ToProgram::decode(&sent[4..]), Err(WireError::Rest(2)));
    }
}

#[test]
fn frames_come_in_any_pieces() {
    let mut sent = Vec::new();
    for message in to_program() {
        message.encode(&mut sent).unwrap();
    }
    for size in [1, 2, 3, 7, 64, 1000] {
        let mut received = FrameBuffer::default();
        let mut read = Vec::new();
        for piece in sent.chunks(size) {
            received.push(piece);
            let bodies = std::iter::from_fn(|| received.next_body().unwrap());
            read.extend(bodies.map(|body| ToProgram::decode(&body).unwrap()));
        }
        assert_eq!(read, to_program());
        assert!(!received.is_full());
    }
}

#[test]
fn what_is_said_is_a_line() {
    let shown = |path: &[u8]| path.rsplit(|byte| *byte == b'/').next().unwrap().to_vec();
    let path = || text("/tree/x");
    let lines = [
        (
            Say::Ring(vec![path(), text("/tree/y"), path()]),
            "these need each other: x -> y -> x",
        ),
        (Say::FailedBefore(path()), "x failed before"),
        (Say::NoRule(path()), "there is no rule to make x"),
        (
            Say::ByHand(path()),
            "x was changed by hand: it stays as it is",
        ),
        (
            Say::Gone(path()),
            "x was built in this run, and its file is gone",
        ),
        (Say::Itself(path()), "x needs itself"),
        (
            Say::Source(path()),
            "x is there, and no build made it: it stays as it is",
        ),
        (
            Say::RuleFailed {
                target: path(),
                do_file: text("/tree/x.do"),
            },
            "x: x.do can't be made",
        ),
        (Say::Exists(path()), "x is there already"),
        (Say::Text(text("any words")), "any words"),
    ];
    for (say, wanted) in lines {
        assert_eq!(say.line(shown), wanted.as_bytes());
    }
}
