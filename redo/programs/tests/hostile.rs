//! Servers that say what no server says: the programs end with a line, and without a panic.

use std::io::Write;
use std::thread;

use redo_wire::{Script, ToProgram, MOST_BODY};

#[allow(dead_code)]
mod support;
use support::{run, Ended, Peer, Tree};

/// What a program does if the server answers with these bytes, and ends.
fn told(program: &str, bytes: &[u8]) -> Ended {
    let tree = Tree::new();
    let listener = tree.listen();
    let bytes = bytes.to_vec();
    let server = thread::spawn(move || {
        let mut peer = Peer::accepted(&listener);
        peer.call();
        let _ = peer.socket.write_all(&bytes); // the program may be gone
    });
    let script = tree.script_program(program, 1);
    let mut command = match program {
        "redo-ifcreate" => script,
        _ => tree.program(program),
    };
    let done = run(command.arg("x"));
    server.join().unwrap();
    done
}

fn frame(message: &ToProgram) -> Vec<u8> {
    let mut bytes = Vec::new();
    message.encode(&mut bytes).unwrap();
    bytes
}

/// Expects a failure with one line that says this.
fn expect(program: &str, bytes: &[u8], wanted: &str) {
    let done = told(program, bytes);
    assert_eq!(done.status, 1, "{done:?}");
    assert_eq!(done.errors, format!("{program}: {wanted}\n"));
}

#[test]
fn what_is_no_message_is_named() {
    let too_long = u32::try_from(MOST_BODY + 1).unwrap().to_le_bytes();
    let cases: [(&[u8], &str); 6] = [
        (&[0, 0, 0, 0], "a message that ends too early"),
        (&[1, 0, 0, 0, 77], "no kind of message: 77"),
        (&[2, 0, 0, 0, 8, 9], "neither yes nor no: 9"),
        (
            &[3, 0, 0, 0, 3, 0, 0],
            "a message with 1 bytes behind its end",
        ),
        (
            &[too_long.as_slice(), b"\n"].concat(),
            "no kind of message: 1",
        ),
        (b"0 fault bad-id\n", "no kind of message: 48"),
    ];
    for (bytes, wanted) in cases {
        for program in ["redo-why", "redo", "redo-ifcreate"] {
            expect(
                program,
                bytes,
                &format!("not a message of the server: {wanted}"),
            );
        }
    }
}

#[test]
fn a_question_is_no_run() {
    let run = frame(&ToProgram::Run(Box::default()));
    expect("redo-why", &run, "the server wants a build");
    expect(
        "redo-ifcreate",
        &run,
        "the redo that runs this .do file has ended",
    );
}

#[test]
fn a_script_with_a_name_that_no_path_has_is_not_run() {
    let names: [&[u8]; 4] = [b"", b"//always", b"%", b"a b"];
    for name in names {
        let script = Script {
            task: 1,
            target: name.to_vec(),
            ..Script::default()
        };
        let order = frame(&ToProgram::Run(Box::new(script)));
        let answer = frame(&ToProgram::Answer { right: false });
        let done = told("redo", &[order, answer].concat());
        assert_eq!(done.status, 1, "{done:?}");
        assert!(!done.errors.is_empty());
    }
}

#[test]
fn drawn_bytes_end_a_program_with_a_line() {
    let mut drawn: u64 = 0x9e37_79b9_7f4a_7c15;
    let mut byte = || {
        drawn ^= drawn << 13;
        drawn ^= drawn >> 7;
        drawn ^= drawn << 17;
        drawn.to_le_bytes()[3]
    };
    for round in 0..60 {
        let length = usize::from(byte()) % 40 + 5;
        let mut bytes: Vec<u8> = (0..length).map(|_| byte()).collect();
        bytes[0] = u8::try_from(length - 4).unwrap();
        bytes[1..4].fill(0);
        bytes[4] %= 10;
        bytes.push(b'\n');
        let program = ["redo-why", "redo", "redo-ifcreate"][round % 3];
        let done = told(program, &bytes);
        assert!((0..=255).contains(&done.status), "{bytes:?}: {done:?}");
        assert!(!done.errors.contains("panicked"), "{bytes:?}: {done:?}");
    }
}
