//! Messages of each kind.

use redo_wire::{
    Call, Digest, FrameBuffer, Limit, Program, Said, Say, Script, Surroundings, ToProgram, ToServer,
};

pub fn text(text: &str) -> Vec<u8> {
    text.as_bytes().to_vec()
}

fn surroundings() -> Surroundings {
    let mut limits = [Limit::default(); 16];
    limits[7] = Limit {
        soft: 1024,
        hard: u64::MAX,
    };
    Surroundings {
        environment: vec![text("A=1"), text("B="), vec![0xff, b'=', b'\n', 0]],
        umask: 0o27,
        limits,
    }
}

fn call() -> Call {
    Call {
        program: Program::Stamp,
        folder: text("/tree/a b\n"),
        words: vec![text("x"), Vec::new(), vec![0x80; 300]],
        surroundings: surroundings(),
        task: Some(u64::MAX),
        content: Some(Digest([7; 32])),
        terminal: true,
    }
}

fn script() -> Script {
    Script {
        task: 1 << 40,
        target: text("d/x.o"),
        do_file: text("/tree/default.o.do"),
        folder: text("/tree"),
        first: text("d/x.o"),
        second: text("d/x"),
        grant: 12,
        asker: Some(3),
        surroundings: Some(surroundings()),
        stamp: Some(text("f644-00")),
        built_before: vec![text("y"), text("z")],
        is_guess: true,
    }
}

pub fn to_server() -> Vec<ToServer> {
    let plain = Call {
        program: Program::Redo,
        words: Vec::new(),
        surroundings: Surroundings::default(),
        task: None,
        content: None,
        terminal: false,
        ..call()
    };
    let programs = Program::ALL.map(|program| Call {
        program,
        ..plain.clone()
    });
    let calls = programs.into_iter().chain([plain, call()]);
    let others = [
        ToServer::Slot,
        ToServer::Ended {
            task: 5,
            ok: true,
            stamp: Some(text("folder")),
        },
        ToServer::Ended {
            task: u64::MAX,
            ok: false,
            stamp: None,
        },
        ToServer::Close,
    ];
    calls
        .map(|call| ToServer::Call(Box::new(call)))
        .chain(others)
        .collect()
}

fn says() -> Vec<Say> {
    let path = || text("/tree/x\n");
    vec![
        Say::Ring(vec![path(), text("/tree/y"), path()]),
        Say::FailedBefore(path()),
        Say::NoRule(path()),
        Say::ByHand(path()),
        Say::Gone(path()),
        Say::Itself(path()),
        Say::Source(path()),
        Say::RuleFailed {
            target: path(),
            do_file: text("/tree/x.do"),
        },
        Say::Exists(path()),
        Say::Text(Vec::new()),
    ]
}

pub fn to_program() -> Vec<ToProgram> {
    let plain = Script {
        asker: None,
        surroundings: None,
        stamp: None,
        ..script()
    };
    let mut all = vec![
        ToProgram::Error(text("redo-ood: no")),
        ToProgram::Output(vec![0, 255, b'\n']),
        ToProgram::End { status: 255 },
        ToProgram::Run(Box::new(script())),
        ToProgram::Run(Box::new(plain)),
        ToProgram::Want { slots: u32::MAX },
        ToProgram::Return { slots: 1 },
        ToProgram::Answer { right: true },
        ToProgram::Answer { right: false },
        ToProgram::Stop,
    ];
    all.extend(
        says()
            .into_iter()
            .map(|what| ToProgram::Say(Said { asker: None, what })),
    );
    let what = Say::Text(text("words"));
    all.push(ToProgram::Say(Said {
        asker: Some(9),
        what,
    }));
    all
}

/// The bodies of some frames.
pub fn bodies(sent: &[u8]) -> Vec<Vec<u8>> {
    let mut received = FrameBuffer::default();
    received.push(sent);
    let bodies = std::iter::from_fn(|| received.next_body().unwrap()).collect();
    assert!(received.rest().is_empty());
    bodies
}
