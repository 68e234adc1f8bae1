//! What `redo --debug` says of each decision.

use redo_core::{Database, Ending, Name, Note, RunId, State, Subject};
use redo_files::paths::shown;
use redo_wire::Say;

use crate::server::Server;

impl Server {
    /// Has the machine note what it decides, if a run is to say that.
    pub(super) fn watch_for_debugging(&mut self) {
        let mut runs = self.calls.runs.values();
        let is_wanted = runs.any(|run| run.options.debugs);
        self.machine.watch(is_wanted);
    }

    /// Says what the machine has noted.
    pub(super) fn tell_notes(&mut self) {
        for note in self.machine.take_notes() {
            match note {
                Note::Begun(..) => {}
                Note::Passed(run, name) => self.tell_ending(run, name, Ending::Right),
                Note::Skipped(run, name) => {
                    self.debug(run, name, b"not built first: it would wait for itself");
                }
                Note::Finished(run, name, ending) => self.tell_ending(run, name, ending),
            }
        }
    }

    /// Says once why a target is to be built: its `.do` file is searched just now.
    pub(super) fn tell_reason(&mut self, run: RunId, target: Name, is_forced: bool) {
        let record = match self.calls.runs.get_mut(&run) {
            Some(record) if record.options.debugs => record,
            _ => return,
        };
        if !record.explained.insert(target) {
            return;
        }
        let folder = record.folder.clone();
        let is_clean = !self.machine.database().is_out_of_date(target);
        let text = match self.machine.database().state(target) {
            State::Idle => b"no build made it yet".to_vec(),
            _ if is_clean && is_forced => b"its build is asked for".to_vec(),
            _ => self.reason(target, &folder),
        };
        self.debug(run, target, &text);
    }

    /// The chain to what has changed, without the target that it begins with.
    fn reason(&mut self, target: Name, folder: &[u8]) -> Vec<u8> {
        let cause = match self.cause_of(target, folder) {
            Ok(cause) => cause,
            Err(refusal) => return refusal.text,
        };
        let chain: Vec<Vec<u8>> = cause.chain.iter().skip(1).map(|one| shown(one)).collect();
        let mut text = chain.join(b" <- ".as_slice());
        if !text.is_empty() {
            text.push(b' ');
        }
        text.extend_from_slice(cause.word.as_bytes());
        text
    }

    fn tell_ending(&mut self, run: RunId, name: Name, ending: Ending) {
        let store = self.machine.database();
        let text: &[u8] = match (ending, store.state(name)) {
            (Ending::Built, _) => b"built",
            (Ending::Failed, _) => b"failed",
            (Ending::Unmade, _) => b"not wanted any more",
            (Ending::Right, _) if store.known.is_edited_now(name) => b"edited, and left as it is",
            (Ending::Right, State::Idle) if store.file(Subject::File(name)).is_none() => b"no file",
            (Ending::Right, State::Idle) => b"a source",
            (Ending::Right, _) => b"up to date",
        };
        self.debug(run, name, text);
    }

    fn debug(&mut self, run: RunId, name: Name, text: &[u8]) {
        let record = self.calls.runs.get(&run);
        if record.map_or(false, |record| record.options.debugs) {
            let line = [self.shown(run, name).as_slice(), b": ", text].concat();
            self.say_to_run(run, None, Say::Text(line));
        }
    }
}
