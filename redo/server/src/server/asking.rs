//! What the programs ask that scripts call.

use redo_core::{Event, Look, Name, RequestId, RunId, Stamp, TaskId, Want, Who};
use redo_files::FileError;
use redo_wire::options::{targets_of, Options};
use redo_wire::{Call, Program};

use crate::calls::Asked;
use crate::client::{ClientId, Role};
use crate::random::Random;
use crate::server::programs::{FAILED, USAGE};
use crate::server::runs::{Links, Refusal};
use crate::server::Server;

/// What a script asks for.
enum Question {
    Ask { want: Want, names: Vec<Name> },
    IfCreate(Vec<Name>),
    Always,
    Stamp([u8; 32]),
}

impl Server {
    /// Takes the call of a program that a script calls.
    pub(super) fn call_of_script(&mut self, id: ClientId, call: Box<Call>, task: u64) {
        let task = TaskId(task);
        let run = match self.calls.script(task) {
            Some((run, _)) => run,
            None => {
                let text = b"its .do file has ended";
                return self.end_with_bytes(id, call.program, text, FAILED);
            }
        };
        let question = match self.question_of(&call, run) {
            Ok(question) => question,
            Err(refusal) => {
                return self.end_with_bytes(id, call.program, &refusal.text, refusal.status);
            }
        };
        let asked = Asked {
            client: id,
            run,
            program: call.program,
            script: Some(task),
            surroundings: call.surroundings.into(),
        };
        let request = self.calls.ask(asked);
        self.set_role(id, Role::Asks(request));
        let event = self.event_of(question, run, task, RequestId::Program(request));
        self.feed(event);
    }

    /// Takes it that the program of a request is gone.
    pub(super) fn lose_request(&mut self, request: u64) {
        if self.calls.asked.remove(&request).is_some() {
            let request = RequestId::Program(request);
            self.feed(Event::Left { request });
        }
    }

    fn question_of(&mut self, call: &Call, run: RunId) -> Result<Question, Refusal> {
        match call.program {
            Program::Redo => {
                let mut targets = Options::of_redo(&call.words)?.targets;
                if targets.is_empty() {
                    targets.push(b"all".to_vec());
                }
                let names = self.names_in(run, &targets, &call.folder, Links::Not)?;
                Ok(Question::Ask {
                    want: Want::Built,
                    names: self.in_order(run, names),
                })
            }
            Program::IfChange => {
                let targets = targets_of(&call.words)?;
                let names = self.names_in(run, &targets, &call.folder, Links::Too)?;
                Ok(Question::Ask {
                    want: Want::UpToDate,
                    names: self.in_order(run, names),
                })
            }
            Program::IfCreate => {
                let targets = targets_of(&call.words)?;
                let names = self.names_in(run, &targets, &call.folder, Links::Not)?;
                Ok(Question::IfCreate(names))
            }
            _ if !targets_of(&call.words)?.is_empty() => Err(no_arguments()),
            Program::Stamp => match call.content {
                Some(content) => Ok(Question::Stamp(content.0)),
                None => Err(no_arguments()),
            },
            _ => Ok(Question::Always),
        }
    }

    fn event_of(
        &mut self,
        question: Question,
        run: RunId,
        task: TaskId,
        request: RequestId,
    ) -> Event {
        match question {
            Question::Ask { want, names } => Event::Ask {
                run,
                request,
                who: Who::Script(task),
                want,
                looks: match want {
                    Want::UpToDate => self.looks(task, &names),
                    Want::Built | Want::Overwritten => Vec::new(),
                },
                names,
            },
            Question::IfCreate(names) => Event::IfCreate {
                task,
                request,
                stamps: self.stamps(&names),
                names,
            },
            Question::Always => Event::Always { task, request },
            Question::Stamp(content) => {
                let known = &mut self.machine.database_mut().known;
                let digest = known.digest_numbered(&content);
                Event::Stamp {
                    task,
                    request,
                    digest,
                }
            }
        }
    }

    fn stamps(&mut self, names: &[Name]) -> Vec<Option<Stamp>> {
        let known = &mut self.machine.database_mut().known;
        known.contents.begin_look();
        names.iter().map(|name| known.look_at(*name)).collect()
    }

    /// Looks at names that a script asks for.
    fn looks(&mut self, task: TaskId, names: &[Name]) -> Vec<Look> {
        let began = self.calls.script(task).and_then(|(_, script)| script.began);
        let known = &mut self.machine.database_mut().known;
        known.contents.begin_look();
        let looks = names.iter().map(|name| {
            let (stamp, changed) = known.look_with_time(*name);
            let late = match (changed, began) {
                (Some(changed), Some(began)) => changed >= began,
                _ => false,
            };
            Look { stamp, late }
        });
        looks.collect()
    }

    fn names_in(
        &mut self,
        run: RunId,
        words: &[Vec<u8>],
        folder: &[u8],
        links: Links,
    ) -> Result<Vec<Name>, FileError> {
        let record = self.calls.runs.get_mut(&run);
        let mut folders = record.map(|record| std::mem::take(&mut record.folders));
        let seen = folders.get_or_insert_with(Default::default);
        let names = self.names_of(words, folder, seen, links);
        if let (Some(record), Some(folders)) = (self.calls.runs.get_mut(&run), folders) {
            record.folders = folders;
        }
        names
    }

    fn in_order(&self, run: RunId, mut names: Vec<Name>) -> Vec<Name> {
        let record = self.calls.runs.get(&run);
        if record.map_or(false, |record| record.options.shuffles) {
            Random::new().shuffle(&mut names);
        }
        names
    }
}

fn no_arguments() -> Refusal {
    Refusal {
        text: b"it takes no arguments".to_vec(),
        status: USAGE,
    }
}
