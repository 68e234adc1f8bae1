//! A stranger: somebody who uses the database, and is no run. It takes locks and releases them, and
//! reports files. It begins builds, and breaks all of them off.
use crate::check::LeftBy;
use crate::world::World;
use redo_core::{Command, Database, Event, Name, Reply, RunId, State, Subject};

/// The stranger's session.
pub const STRANGER: RunId = RunId(64);

impl World {
    /// The names whose locks the stranger has, or nobody.
    pub fn locked_by(&self, holder: Option<RunId>) -> Vec<Name> {
        let names = (0..self.setup.names() as u32).map(Name);
        names.filter(|name| self.machine.database().cell(*name).holder == holder).collect()
    }

    pub fn lock_as_stranger(&mut self) {
        let name = self.random.pick(&self.locked_by(None));
        self.note(|| format!("      a stranger locks {name:?}"));
        self.obey_stranger(&Command::Lock(name));
        let is_target = (name.0 as usize) < self.setup.targets;
        if is_target && !self.users.is_empty() && self.random.chance(30) {
            self.begin_as_stranger(name);
        }
    }

    /// The stranger begins a build. What an earlier one has left counts no more, as the server says.
    fn begin_as_stranger(&mut self, name: Name) {
        self.note(|| format!("      a stranger builds {name:?}"));
        self.obey_stranger(&Command::Start(name));
        self.monitor.begin(name);
        self.mentioned.insert(name);
        if self.machine.database().file(Subject::Left(name)).is_some() {
            self.obey_stranger(&Command::Gone(Subject::Left(name)));
        }
        self.tell_touched(name);
    }

    /// The stranger releases a lock. It may have it again before the machine is told.
    pub fn unlock_as_stranger(&mut self) {
        let name = self.random.pick(&self.locked_by(Some(STRANGER)));
        let is_back = !self.frozen && self.random.chance(25);
        self.note(|| format!("      a stranger unlocks {name:?}, and takes it again: {is_back}"));
        if matches!(self.state(name), State::Building(_)) {
            self.obey_stranger(&Command::Failed(name));
            self.monitor.left.insert(name, LeftBy::Unknown);
            self.tell_touched(name);
        }
        self.obey_stranger(&Command::Unlock(name));
        if is_back {
            self.obey_stranger(&Command::Lock(name));
        }
        self.event(Event::Unlocked { name });
    }

    /// Tells the machine, if a run is there that may rest on it.
    fn tell_touched(&mut self, name: Name) {
        self.note_touched(name);
        let run = self.users.keys().next().copied();
        if let Some(run) = run {
            self.event(Event::Touched { run, name });
        }
    }

    /// The stranger reports a file as it is. It may have been another for a while, and reported.
    pub fn report_as_stranger(&mut self, run: RunId) {
        let name = Name(self.random.below(self.setup.names()) as u32);
        if matches!(self.state(name), State::Building(_)) {
            return;
        }
        let file = self.files.get(&name).copied();
        let database = self.machine.database().file(Subject::File(name));
        let is_other_before = file.is_some() && self.random.chance(40);
        if is_other_before {
            let other = self.new_stamp();
            self.obey_stranger(&Command::File(Subject::File(name), other));
        } else if database == self.stamp(name) {
            return;
        }
        let command = match self.stamp(name) {
            Some(stamp) => Command::File(Subject::File(name), stamp),
            None => Command::Gone(Subject::File(name)),
        };
        self.obey_stranger(&command);
        self.told.insert(name, self.time);
        self.mentioned.insert(name);
        self.note_touched(name);
        self.event(Event::Touched { run, name });
    }

    fn obey_stranger(&mut self, command: &Command) {
        self.counts.strange += 1;
        let reply = self.machine.database_mut().obey(STRANGER, command);
        self.require(reply == Reply::Done, || format!("{reply:?} to a stranger's {command:?}"));
    }

    /// (f): what scripts were answered for was another, whatever it is now.
    fn note_touched(&mut self, name: Name) {
        let is_read = |target: &&Name| {
            let is_answered = self.monitor.answered[*target].contains(&name);
            is_answered && matches!(self.state(**target), State::Building(_))
        };
        let targets: Vec<Name> = self.monitor.answered.keys().filter(is_read).copied().collect();
        self.monitor.changed.extend(targets);
    }
}
