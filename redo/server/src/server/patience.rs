//! What programs are told that wait for long.

use redo_core::{Name, Phase, RunId, TaskId};
use redo_files::paths::shown;
use redo_wire::{Say, ToProgram};

use crate::client::{ClientId, Role, Standing};
use crate::server::Server;
use crate::timers::Alarm;

/// A task that waits for a lock of others.
struct Waiting {
    task: TaskId,
    target: Name,
    /// Who has the lock, behind the target.
    why: &'static [u8],
}

impl Server {
    /// Says to a program which waits for its turn that it does.
    pub(super) fn tell_of_turn(&mut self, id: ClientId) {
        let standing = self.clients.get(&id).map(|client| &client.standing);
        if !matches!(standing, Some(Standing::Program(Role::Waiting(_)))) {
            return;
        }
        let others = self.sessions.count();
        let mut line = format!("redo: {others} others build in ").into_bytes();
        line.extend(shown(self.taken.home.top()));
        line.extend(b"; waiting for one to end");
        self.send(id, &ToProgram::Error(line));
    }

    /// Says to a run for which targets it has waited since the last time this was looked at, each
    /// once.
    pub(super) fn tell_of_locks(&mut self, run: RunId) {
        let waiting = self.waiting_for_locks(run);
        let record = match self.calls.runs.get_mut(&run) {
            Some(record) => record,
            None => return,
        };
        self.timers.set(Alarm::Locks(run), record.patience);
        let before = std::mem::take(&mut record.parked);
        let is_old = |one: &&Waiting| before.get(&one.task) == Some(&false);
        record.parked = waiting
            .iter()
            .map(|one| (one.task, before.contains_key(&one.task)))
            .collect();
        for one in waiting.iter().filter(is_old) {
            let mut text = b"waiting for ".to_vec();
            text.extend(self.shown(run, one.target));
            text.extend(one.why);
            self.say_to_run(run, None, Say::Text(text));
        }
    }

    fn waiting_for_locks(&self, run: RunId) -> Vec<Waiting> {
        let tasks = self.machine.runs().get(&run).map(|state| &state.tasks);
        let all = tasks.into_iter().flatten();
        let waiting = all.filter_map(|id| {
            let task = self.machine.tasks().get(id)?;
            let why: &[u8] = match task.phase {
                Phase::Parked => b", which another redo builds",
                Phase::Barred => b", which another program has locked",
                _ => return None,
            };
            let (task, target) = (*id, task.target);
            Some(Waiting { task, target, why })
        });
        waiting.collect()
    }
}
