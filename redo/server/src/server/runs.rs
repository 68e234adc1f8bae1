//! Runs: calls of `redo` and `redo-ifchange` by users.

use std::os::unix::io::AsRawFd;

use redo_core::{Database, Event, Name, RunId, State as NameState, Subject, TaskId, Who, FOLDER};
use redo_files::private::Home;
use redo_files::stamp::Stamp as LookStamp;
use redo_files::top::{places, SeenFolders};
use redo_files::{paths, system as files, FileError};
use redo_wire::options::{Options, UsageError};
use redo_wire::{Call, Program, Say, ToProgram};

use crate::calls::patience;
use crate::calls::{Asked, Run};
use crate::client::{ClientId, Role};
use crate::groups::kill_scripts;
use crate::known::Change;
use crate::names::FileStamp;
use crate::naming::Naming;
use crate::random::Random;
use crate::server::programs::{FAILED, USAGE};
use crate::server::Server;
use crate::sessions::Session;
use crate::timers::Alarm;

/// What is said of a line that the database didn't take, before the line and its answer.
pub(super) const HAS_FAULT: &[u8] = b"the database has a fault: ";

/// What a user wants.
pub(super) struct Wanted {
    pub names: Vec<Name>,
    pub options: Options,
    pub folders: SeenFolders,
}

/// Whether the symbolic links on the way to a file are wanted as well.
#[derive(Clone, Copy, Debug, PartialEq, Eq)]
pub(super) enum Links {
    Not,
    Too,
}

/// Why a call can't be done: what is said, and the status.
pub(super) struct Refusal {
    pub text: Vec<u8>,
    pub status: u8,
}

impl From<UsageError> for Refusal {
    fn from(error: UsageError) -> Refusal {
        Refusal {
            text: error.text(),
            status: USAGE,
        }
    }
}

impl From<FileError> for Refusal {
    fn from(error: FileError) -> Refusal {
        Refusal {
            text: error.text(),
            status: FAILED,
        }
    }
}

impl Server {
    /// Takes a call that builds. If nothing is to be done, it ends at once.
    pub(super) fn call_of_run(&mut self, id: ClientId, call: Box<Call>) {
        self.follow_top();
        let wanted = match self.wanted(&call) {
            Ok(wanted) => wanted,
            Err(refusal) => {
                return self.end_with_bytes(id, call.program, &refusal.text, refusal.status);
            }
        };
        self.settle_clients();
        let changes = self.machine.database_mut().known.changes();
        if wanted.options.only_tells {
            return self.tell_only(id, &call, &wanted);
        }
        let is_forced = call.program == Program::Redo;
        if !is_forced && changes.is_empty() && self.is_nothing_to_do(&wanted.names) {
            return self.end_program(id, 0);
        }
        match self.sessions.take_at_once() {
            Some(session) => self.start_run(id, session, &call, wanted, changes),
            None => {
                let time = patience(&call.surroundings);
                self.timers.set(Alarm::Turn(id), time);
                self.set_role(id, Role::Waiting(call));
                self.sessions.wait(id);
            }
        }
    }

    /// Begins a run that has waited for its session.
    pub(super) fn begin_run(&mut self, id: ClientId, session: Session, call: Call) {
        match self.wanted(&call) {
            Ok(wanted) => {
                self.settle_clients();
                let changes = self.machine.database_mut().known.changes();
                self.start_run(id, session, &call, wanted, changes);
            }
            Err(refusal) => {
                self.sessions.give_back(session);
                self.end_with_bytes(id, call.program, &refusal.text, refusal.status);
            }
        }
    }

    /// Finds out where the tree is now: it may have been moved.
    pub(super) fn follow_top(&mut self) {
        let folder = self.machine.database().known.contents.folder();
        let place = format!("/proc/self/fd/{}", folder.as_raw_fd());
        if let Ok(top) = files::read_link(place.as_bytes()) {
            let is_same = top == self.taken.home.top() || files::lstat(&top).is_err();
            if !is_same {
                self.taken.home = Home::new(&top, self.taken.home.trust());
            }
        }
    }

    fn start_run(
        &mut self,
        id: ClientId,
        session: Session,
        call: &Call,
        wanted: Wanted,
        changes: Vec<Change>,
    ) {
        let run = RunId(session.number());
        let Wanted { names, .. } = wanted;
        let record = Run::new(id, session, call, wanted.options, wanted.folders);
        let (want, keep_going) = (record.want(call.program), record.options.keeps_going);
        let surroundings = record.surroundings.clone();
        self.timers.drop(Alarm::Turn(id));
        self.timers.set(Alarm::Locks(run), record.patience);
        self.calls.runs.insert(run, record);
        self.watch_for_debugging();
        self.set_role(id, Role::Run(run));
        self.open(run, keep_going, &changes);
        let request = self.calls.ask(Asked {
            client: id,
            run,
            program: call.program,
            script: None,
            surroundings,
        });
        self.feed(Event::Ask {
            run,
            request: redo_core::RequestId::Program(request),
            who: Who::User,
            want,
            names,
            looks: Vec::new(),
        });
    }

    /// Opens a run of the machine, and tells it of files.
    pub(super) fn open(&mut self, run: RunId, keep_going: bool, changes: &[Change]) {
        let stamp = format!("run-{}", Random::new().digits());
        let always = self.machine.database_mut().run_stamp(&stamp);
        self.feed(Event::Open {
            run,
            keep_going,
            always,
        });
        for name in self.machine.database().known.untold_edits() {
            self.feed(Event::Touched { run, name });
        }
        for Change { name, stamp } in changes.iter().copied() {
            self.feed(Event::File { run, name, stamp });
        }
    }

    /// Reads what a user wants.
    fn wanted(&mut self, call: &Call) -> Result<Wanted, Refusal> {
        let mut options = match call.program {
            Program::Redo => Options::of_redo(&call.words)?,
            _ => Options::of_targets(&call.words)?,
        };
        if call.program == Program::Redo && options.targets.is_empty() {
            options.targets.push(b"all".to_vec());
        }
        if options.shuffles {
            Random::new().shuffle(&mut options.targets);
        }
        let mut folders = SeenFolders::new();
        let targets = &options.targets;
        let names = self.names_of(targets, &call.folder, &mut folders, Links::Not)?;
        Ok(Wanted {
            names,
            options,
            folders,
        })
    }

    /// Returns the names of paths from a folder; before them, if they are wanted, those of the
    /// symbolic links on the ways.
    pub(super) fn names_of(
        &mut self,
        words: &[Vec<u8>],
        folder: &[u8],
        folders: &mut SeenFolders,
        links: Links,
    ) -> Result<Vec<Name>, FileError> {
        let top = self.taken.home.top();
        let known = &mut self.machine.database_mut().known;
        let mut naming = Naming::new(top);
        let (mut on_the_way, mut names) = (Vec::new(), Vec::with_capacity(words.len()));
        for word in words {
            if word.is_empty() {
                return Err(FileError::EmptyPath);
            }
            let path = paths::join(folder, word);
            if links == Links::Too {
                on_the_way.extend(naming.links(&path)?);
            }
            let name = naming.name(&path)?;
            folders.check_inside(&name, top)?;
            names.push(known.intern(&name));
        }
        let links = on_the_way.iter().map(|link| {
            let name = naming.name(link)?;
            folders.check_inside(&name, top)?;
            Ok(known.intern(&name))
        });
        let links: Vec<Name> = links.collect::<Result<_, FileError>>()?;
        Ok(links.into_iter().chain(names).collect())
    }

    /// Says whether these names are right, and none is to be warned of.
    fn is_nothing_to_do(&mut self, names: &[Name]) -> bool {
        let store = self.machine.database();
        let is_right = |name: &Name| match store.state(*name) {
            NameState::Built => !store.is_out_of_date(*name),
            NameState::Idle => {
                let file = store.file(Subject::File(*name));
                file.map_or(false, |file| file != FOLDER)
            }
            NameState::Building(_) | NameState::Failed => false,
        };
        let is_told = !store.known.has_edited() && store.known.untold_edits().is_empty();
        let is_plain = store.file(Subject::Always).is_none() && is_told;
        let is_done = is_plain && names.iter().all(is_right);
        self.note_failure();
        is_done && self.is_ready()
    }

    /// Takes it that a run has a slot more. It is told once more how many it could use.
    pub(super) fn take_slot(&mut self, run: RunId) {
        self.feed(Event::Slot { run });
        let state = self.machine.runs().get(&run);
        let slots = state.map_or(0, |state| state.queue.len());
        let slots = u32::try_from(slots).unwrap_or(u32::MAX);
        self.tell_run(run, &ToProgram::Want { slots });
    }

    /// Takes it that a script has ended, and that its output is in its place: `made` is the stamp
    /// of that, if it ended well. What is there now is another file if somebody has edited it.
    pub(super) fn take_end(
        &mut self,
        id: ClientId,
        run: RunId,
        task: TaskId,
        made: Option<Option<LookStamp>>,
    ) {
        let record = self.calls.runs.get_mut(&run);
        let script = match record.and_then(|record| record.scripts.remove(&task)) {
            Some(script) => script,
            None => return self.refuse_program(id, "the end of a script that doesn't run"),
        };
        if script.is_guess && made.is_none() {
            self.tell_failed_guess(task);
        }
        let left = self.calls.take_asked(run, Some(task));
        let known = &mut self.machine.database_mut().known;
        known.contents.begin_look();
        let there = known.look_at(script.target);
        let made = made.map(|made| made.map(|made| known.stamp_numbered(&FileStamp::Look(made))));
        let stamp = made.unwrap_or(there);
        let content = made.and_then(|made| known.content_of(made));
        self.feed(Event::Ended {
            task,
            ok: made.is_some(),
            stamp,
            content,
        });
        if stamp != there {
            let name = script.target;
            let stamp = there;
            self.feed(Event::File { run, name, stamp });
        }
        self.end_all(left);
    }

    /// Ends a run that is over.
    pub(super) fn close_run(&mut self, run: RunId) {
        let left = self.calls.take_asked(run, None);
        self.feed(Event::Close { run });
        self.end_all(left);
        self.calls.asked.retain(|_, asked| asked.run != run);
        self.timers.drop(Alarm::Locks(run));
        let closed = self.calls.runs.remove(&run);
        self.watch_for_debugging();
        if let Some(record) = closed {
            if record.is_stopped {
                self.end_session(record.session);
            } else {
                self.sessions.give_back(record.session);
            }
        }
        self.forget_unused();
    }

    /// Forgets what no name has. While a run is open, the machine may ask for it.
    pub(super) fn forget_unused(&mut self) {
        if self.machine.runs().is_empty() {
            self.machine.database_mut().known.forget_unused();
        }
    }

    /// Takes it that a run is gone: its scripts end as well.
    pub(super) fn lose_run(&mut self, run: RunId) {
        if let Some(record) = self.calls.runs.get(&run) {
            let tasks: Vec<u64> = record.scripts.keys().map(|task| task.0).collect();
            if !tasks.is_empty() {
                kill_scripts(&self.taken.whole(places::SOCKET), &tasks);
            }
        }
        self.close_run(run);
    }

    /// Has a run end whose commands the database didn't do.
    pub(super) fn stop_run(&mut self, run: RunId, told: &[u8]) {
        let text = [HAS_FAULT, told].concat();
        let client = match self.calls.runs.get_mut(&run) {
            Some(record) if !record.is_stopped => {
                record.is_stopped = true;
                record.client
            }
            _ => return,
        };
        self.say_to_run(run, None, Say::Text(text));
        self.send(client, &ToProgram::Stop);
    }

    fn end_all(&mut self, left: Vec<Asked>) {
        for asked in left {
            let text = b"its .do file has ended";
            self.end_with_bytes(asked.client, asked.program, text, FAILED);
        }
    }
}
