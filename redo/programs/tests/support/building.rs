//! Runs, with a server that tells which scripts to run.

use std::fs;
use std::os::unix::fs::symlink;
use std::os::unix::net::UnixListener;
use std::os::unix::process::CommandExt;
use std::process::{Child, Command, Stdio};

use redo_wire::{Call, Program, Script, ToProgram, ToServer};

use super::{bytes, finished, spawned, Ended, Peer, Tree};

/// A run that was called, and the server's end of its connection.
pub struct Run {
    pub tree: Tree,
    pub listener: UnixListener,
    pub peer: Peer,
    pub child: Child,
    pub call: Call,
}

impl Run {
    /// Calls a program with some words, in a tree with these scripts.
    pub fn new(program: Program, text: &str, scripts: &[(&str, &str)]) -> Run {
        Run::with(program, text, scripts, |_| {})
    }

    pub fn with(
        program: Program,
        text: &str,
        scripts: &[(&str, &str)],
        change: impl FnOnce(&mut Command),
    ) -> Run {
        let tree = Tree::new();
        let listener = tree.listen();
        fs::create_dir(tree.path("bin")).unwrap();
        for program in Program::ALL {
            symlink(
                env!("CARGO_BIN_EXE_redo"),
                tree.path("bin").join(program.name()),
            )
            .unwrap();
        }
        scripts
            .iter()
            .for_each(|(name, text)| drop(tree.write(name, text)));
        let mut command = tree.program("redo");
        command
            .arg0(tree.path("bin").join(program.name()))
            .env_remove("MAKEFLAGS");
        command.stdout(Stdio::piped()).stderr(Stdio::piped());
        change(command.args(text.split_whitespace()));
        let child = spawned(&mut command);
        let mut peer = Peer::accepted(&listener);
        let call = peer.call();
        Run {
            tree,
            listener,
            peer,
            child,
            call,
        }
    }

    /// The order to run the script of a target, for a user.
    pub fn script(&self, task: u64, target: &str) -> Script {
        let path = |name: &str| bytes(&self.tree.path(name));
        Script {
            task,
            target: target.as_bytes().to_vec(),
            do_file: path(&format!("{target}.do")),
            folder: bytes(&self.tree.0),
            first: target.as_bytes().to_vec(),
            second: target.as_bytes().to_vec(),
            grant: 1,
            ..Script::default()
        }
    }

    pub fn order(&mut self, script: Script) {
        self.peer.send(&ToProgram::Run(Box::new(script)));
    }

    /// Expects that a script has ended. Returns the stamp of what it made.
    pub fn expect_end(&mut self, number: u64, well: bool) -> Option<Vec<u8>> {
        match self.peer.next() {
            Some(ToServer::Ended { task, ok, stamp }) => {
                assert_eq!((task, ok), (number, well));
                stamp
            }
            other => panic!("no end of a script: {other:?}"),
        }
    }

    /// Answers, and expects that the run is over then.
    pub fn conclude(mut self, right: bool) -> (Ended, Tree) {
        self.peer.send(&ToProgram::Answer { right });
        assert_eq!(self.peer.next(), Some(ToServer::Close));
        assert_eq!(self.peer.next(), None);
        (finished(self.child), self.tree)
    }

    pub fn read(&self, name: &str) -> String {
        fs::read_to_string(self.tree.path(name)).unwrap()
    }
}
