//! The database by the letter of docs/RULES.md: small and slow. Out of date is a search along rows.
use redo_core::{Command, Database, Digest, Mark, Name, Reply, RunId, Stamp, State, Subject};
use std::collections::{BTreeMap, BTreeSet};

/// What is kept of a name.
#[derive(Clone, PartialEq, Eq, Debug)]
pub struct Cell {
    pub file: Option<Stamp>,
    pub state: State,
    pub builds: u32,
    pub done: Option<Stamp>,
    pub digest: Option<Digest>,
    pub changed: BTreeMap<Subject, Mark>,
    pub created: BTreeSet<Name>,
    pub always: bool,
    pub holder: Option<RunId>,
    pub grants: u32,
}

impl Default for Cell {
    /// What is kept of a name that no command was about.
    fn default() -> Cell {
        Cell {
            file: None,
            state: State::Idle,
            builds: 0,
            done: None,
            digest: None,
            changed: BTreeMap::new(),
            created: BTreeSet::new(),
            always: false,
            holder: None,
            grants: 0,
        }
    }
}

/// The reply to a command, with all that a history has of it.
#[derive(Clone, PartialEq, Eq, Debug)]
pub enum Told {
    Ok,
    Granted(u32),
    Busy(u32),
    Stale(Vec<Subject>),
    Stamped(Digest),
    Refused(&'static str),
    Exists(Name),
}

/// A line of a history.
pub type Line = (RunId, Command, Told);

/// The database. It keeps the history if that is wanted.
#[derive(Clone, PartialEq, Debug, Default)]
pub struct Model {
    pub cells: BTreeMap<Subject, Cell>,
    unknown: Cell,
    /// The names that are too long for `//edited/NAME` and `//left/NAME`.
    pub long: BTreeSet<Name>,
    pub history: Option<Vec<Line>>,
}

impl Model {
    /// An empty database.
    pub fn new(keeps_history: bool) -> Model {
        let history = keeps_history.then(Vec::new);
        Model { history, ..Model::default() }
    }

    pub fn at(&self, subject: Subject) -> &Cell {
        self.cells.get(&subject).unwrap_or(&self.unknown)
    }

    pub fn cell(&self, name: Name) -> &Cell {
        self.at(Subject::File(name))
    }

    /// A reason of its own to be built again.
    fn reason(&self, subject: Subject) -> bool {
        let cell = self.at(subject);
        match cell.state {
            State::Idle => false,
            State::Building(_) | State::Failed => true,
            State::Built => {
                cell.file != cell.done
                    || cell.always
                    || cell.created.iter().any(|name| self.cell(*name).file.is_some())
                    || cell.changed.iter().any(|(subject, mark)| self.mark(*subject) != *mark)
            }
        }
    }

    /// The names that are reached along change rows, the first among them.
    pub fn reached(&self, name: Name) -> BTreeSet<Subject> {
        let mut seen = BTreeSet::from([Subject::File(name)]);
        let mut line = vec![Subject::File(name)];
        while let Some(subject) = line.pop() {
            let needs = self.at(subject).changed.keys().copied();
            line.extend(needs.filter(|need| seen.insert(*need)));
        }
        seen
    }

    /// The names of files that a name was built from, through the contents of edited targets.
    pub fn reached_through(&self, name: Name) -> BTreeSet<Name> {
        let mut seen = BTreeSet::from([name]);
        let mut line = vec![name];
        while let Some(name) = line.pop() {
            let needs = self.cell(name).changed.keys().filter_map(|subject| match subject {
                Subject::File(name) | Subject::Edited(name) => Some(*name),
                Subject::Left(_) | Subject::Always => None,
            });
            line.extend(needs.filter(|need| seen.insert(*need)));
        }
        seen
    }

    /// Out of date, or idle without a file.
    pub fn stale(&self, name: Name) -> bool {
        let cell = self.cell(name);
        self.is_out_of_date(name) || (cell.state == State::Idle && cell.file.is_none())
    }

    fn stale_subject(&self, subject: Subject) -> bool {
        match subject {
            Subject::File(name) => self.stale(name),
            _ => self.at(subject).file.is_none(),
        }
    }

    fn told(&self, run: RunId, command: &Command) -> Told {
        let builds = |name: &Name| self.cell(*name).state == State::Building(run);
        match command {
            Command::File(..) | Command::Gone(_) => Told::Ok,
            Command::Lock(name) => match self.cell(*name).holder {
                None => Told::Granted(self.cell(*name).grants + 1),
                Some(_) => Told::Busy(self.cell(*name).grants),
            },
            Command::Unlock(name) | Command::Start(name) => self.told_holder(run, *name),
            Command::IfChange(name, _)
            | Command::IfCreate(name, _)
            | Command::Always(name)
            | Command::Stamp(name, _)
            | Command::Done(name, _)
            | Command::Failed(name)
                if !builds(name) =>
            {
                Told::Refused("not-building")
            }
            Command::IfChange(name, names) => self.told_change(*name, names),
            Command::IfCreate(name, names) => self.told_create(*name, names),
            Command::Stamp(_, digest) => Told::Stamped(*digest),
            Command::Always(_) | Command::Done(..) | Command::Failed(_) => Told::Ok,
        }
    }

    fn told_holder(&self, run: RunId, name: Name) -> Told {
        if self.cell(name).holder != Some(run) {
            Told::Refused("not-locked")
        } else if matches!(self.cell(name).state, State::Building(_)) {
            Told::Refused("building")
        } else {
            Told::Ok
        }
    }

    fn told_change(&self, target: Name, names: &[Subject]) -> Told {
        if names.contains(&Subject::File(target)) {
            return Told::Refused("self");
        }
        let stale: BTreeSet<Subject> =
            names.iter().copied().filter(|name| self.stale_subject(*name)).collect();
        if stale.is_empty() {
            Told::Ok
        } else {
            Told::Stale(stale.into_iter().collect())
        }
    }

    fn told_create(&self, target: Name, names: &[Name]) -> Told {
        if names.contains(&target) {
            return Told::Refused("self");
        }
        let there = names.iter().find(|name| self.cell(**name).file.is_some());
        there.map_or(Told::Ok, |name| Told::Exists(*name))
    }

    fn change(&mut self, run: RunId, command: &Command) {
        let marks: Vec<(Subject, Mark)> = match command {
            Command::IfChange(_, names) => names.iter().map(|n| (*n, self.mark(*n))).collect(),
            _ => Vec::new(),
        };
        let cell = self.cells.entry(subject_of(command)).or_default();
        match command {
            Command::File(_, stamp) => cell.file = Some(*stamp),
            Command::Gone(_) => cell.file = None,
            Command::Lock(_) => (cell.holder, cell.grants) = (Some(run), cell.grants + 1),
            Command::Unlock(_) => cell.holder = None,
            Command::Start(_) => {
                (cell.state, cell.digest, cell.always) = (State::Building(run), None, false);
                cell.changed.clear();
                cell.created.clear();
            }
            Command::IfChange(..) => cell.changed.extend(marks),
            Command::IfCreate(_, names) => cell.created.extend(names),
            Command::Always(_) => cell.always = true,
            Command::Stamp(_, digest) => cell.digest = Some(*digest),
            Command::Done(_, stamp) => {
                (cell.state, cell.builds) = (State::Built, cell.builds + 1);
                (cell.file, cell.done) = (*stamp, *stamp);
            }
            Command::Failed(_) => cell.state = State::Failed,
        }
    }
}

fn subject_of(command: &Command) -> Subject {
    match command {
        Command::File(subject, _) | Command::Gone(subject) => *subject,
        Command::Lock(name)
        | Command::Unlock(name)
        | Command::Start(name)
        | Command::IfChange(name, _)
        | Command::IfCreate(name, _)
        | Command::Always(name)
        | Command::Stamp(name, _)
        | Command::Done(name, _)
        | Command::Failed(name) => Subject::File(*name),
    }
}

impl Database for Model {
    fn obey(&mut self, run: RunId, command: &Command) -> Reply {
        let told = self.told(run, command);
        let reply = match &told {
            Told::Ok | Told::Granted(_) | Told::Stamped(_) => Reply::Done,
            Told::Stale(names) => Reply::Stale(names.clone()),
            Told::Busy(_) => Reply::Busy,
            Told::Refused(_) => Reply::Refused,
            Told::Exists(name) => Reply::Exists(*name),
        };
        if matches!(reply, Reply::Done | Reply::Stale(_)) {
            self.change(run, command);
        }
        if let Some(history) = &mut self.history {
            history.push((run, command.clone(), told));
        }
        reply
    }

    fn is_out_of_date(&self, target: Name) -> bool {
        self.reached(target).into_iter().any(|subject| self.reason(subject))
    }

    fn has_reason(&self, target: Name) -> bool {
        self.reason(Subject::File(target))
    }

    fn state(&self, name: Name) -> State {
        self.cell(name).state
    }

    fn file(&self, subject: Subject) -> Option<Stamp> {
        self.at(subject).file
    }

    fn is_as_built(&self, target: Name) -> bool {
        self.cell(target).file == self.cell(target).done
    }

    fn has_own_names(&self, name: Name) -> bool {
        !self.long.contains(&name)
    }

    fn needs(&self, target: Name) -> Vec<Subject> {
        self.cell(target).changed.keys().copied().collect()
    }

    fn edited(&self) -> Vec<Name> {
        let names = self.cells.iter().filter_map(|(subject, cell)| match subject {
            Subject::Edited(name) if cell.file.is_some() => Some(*name),
            _ => None,
        });
        names.collect()
    }

    fn mark(&self, subject: Subject) -> Mark {
        let cell = self.at(subject);
        match cell.state {
            State::Idle => cell.file.map_or(Mark::Absent, Mark::File),
            State::Building(_) | State::Failed => Mark::Pending,
            State::Built => cell.digest.map_or(Mark::Builds(cell.builds), Mark::Digest),
        }
    }

    fn row(&self, target: Name, subject: Subject) -> Option<Mark> {
        self.cell(target).changed.get(&subject).copied()
    }
}
