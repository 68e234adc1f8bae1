//! What is to be true, said without the machine: by the database, and by what scripts and users
//! saw. Letters are those of the page of the crate.
use crate::world::World;
use redo_core::{
    Chore, Database, Digest, Ending, Event, Mark, Name, Note, Outcome, RequestId, RunId, Stamp,
    State, Subject, TaskId, Want, FOLDER, NO_FILE,
};
use std::collections::{BTreeMap, BTreeSet};

/// What the file of a target was when its last build ended.
#[derive(Clone, Copy, PartialEq, Eq, Debug)]
pub enum LeftBy {
    /// It was killed.
    Unknown,
    Known(Option<Stamp>),
}

#[derive(Default)]
pub struct Monitor {
    pub violation: Option<String>,
    /// What was built, or kept as it is, in a run; what was run there; and what was tried there.
    pub built: BTreeSet<(RunId, Name)>,
    ran: BTreeSet<(RunId, Name)>,
    attempted: BTreeSet<(RunId, Name)>,
    /// What the last `done` of a target gave, and what its last build left.
    pub made: BTreeMap<Name, Option<Stamp>>,
    pub left: BTreeMap<Name, LeftBy>,
    /// For each target, its rows when its script was first answered for them.
    pub first: BTreeMap<Name, BTreeMap<Subject, Mark>>,
    /// The rows of each target when its script asked last for what it wasn't answered for.
    pub asked: BTreeMap<Name, BTreeMap<Subject, Mark>>,
    /// What the script of each target was answered for.
    pub answered: BTreeMap<Name, BTreeSet<Name>>,
    /// The targets of which something changed while they were built.
    pub changed: BTreeSet<Name>,
    /// The targets that may be doubtful: their scripts did without a name, which no row may show,
    /// or called `redo-always` while another run had its stamp.
    pub may_doubt: BTreeSet<Name>,
    /// The targets whose scripts may have read what the machine was never told of.
    pub unseen: BTreeSet<Name>,
    /// Whether the former run of all was without an edit, too.
    pub is_settled: bool,
    /// The digest that each target is to have.
    pub digests: BTreeMap<Name, Option<Digest>>,
    /// How many names of a request were begun.
    begun: BTreeMap<RequestId, usize>,
}

impl Monitor {
    /// Whether a file with this stamp, of this target, is one that somebody edited.
    pub fn is_edited(&self, name: Name, file: Option<Stamp>) -> bool {
        let is_file = file.map_or(false, |stamp| stamp != FOLDER);
        let is_made = self.made.get(&name).map_or(false, |made| *made == file);
        let left = self.left.get(&name);
        is_file && !is_made && matches!(left, Some(LeftBy::Known(left)) if *left != file)
    }

    pub fn begin(&mut self, target: Name) {
        self.first.remove(&target);
        self.answered.remove(&target);
        self.asked.remove(&target);
        self.changed.remove(&target);
        self.may_doubt.remove(&target);
        self.unseen.remove(&target);
        self.digests.remove(&target);
        self.left.remove(&target);
    }

    fn end_run(&mut self, run: RunId) {
        self.built.retain(|(other, _)| *other != run);
        self.ran.retain(|(other, _)| *other != run);
        self.attempted.retain(|(other, _)| *other != run);
    }
}

impl World {
    pub fn fault(&mut self, text: String) {
        self.monitor.violation.get_or_insert(text);
    }

    pub fn require(&mut self, holds: bool, text: impl FnOnce() -> String) {
        if !holds {
            self.fault(text());
        }
    }

    /// (e): so many chores an event leads to at most.
    pub fn most_chores(&self, event: &Event) -> u64 {
        let names = match event {
            Event::Ask { names, .. } => names.len(),
            Event::Found { missing, .. } => missing.len(),
            _ => 0,
        };
        let todo: usize = self.machine.requests().values().map(|r| r.todo.len()).sum();
        let tasks = self.machine.tasks().len() + self.machine.requests().len();
        (40 + 14 * (names + todo + tasks + self.setup.names())) as u64
    }

    pub fn before_chore(&mut self, chore: &Chore) {
        match chore {
            Chore::Start(task) => {
                self.check_rule(*task);
                self.starting(*task);
            }
            Chore::StartKept(task) => {
                let target = self.machine.tasks()[task].target;
                self.monitor.begin(target);
            }
            Chore::Launch(task) => self.note_rule(*task),
            Chore::Done { task, stamp } | Chore::DoneKept { task, stamp } => {
                let (run, target) = self.place(*task);
                self.monitor.built.insert((run, target));
                self.monitor.made.insert(target, *stamp);
                self.monitor.left.insert(target, LeftBy::Known(*stamp));
            }
            Chore::Fail(task) => {
                let (_, target) = self.place(*task);
                let file = self.machine.database().cell(target).file;
                self.monitor.left.insert(target, LeftBy::Known(file));
            }
            Chore::CloseFail { target, .. } => {
                self.monitor.left.insert(*target, LeftBy::Unknown);
            }
            Chore::Absent { task, names } => self.note_absence(*task, names),
            Chore::Doubt(task) => self.check_doubt(*task),
            Chore::Forget(run) => self.monitor.end_run(*run),
            _ => {}
        }
    }

    fn place(&self, task: TaskId) -> (RunId, Name) {
        let task = &self.machine.tasks()[&task];
        (task.run, task.target)
    }

    /// (b) and (c), just before a build begins.
    fn starting(&mut self, id: TaskId) {
        let task = self.machine.tasks()[&id].clone();
        let (run, target) = (task.run, task.target);
        let database = self.machine.database();
        let cell = database.cell(target);
        let is_file = cell.file.map_or(false, |stamp| stamp != FOLDER);
        let is_idle = cell.state == State::Idle;
        let due = if is_idle { !is_file } else { database.is_out_of_date(target) };
        let own = is_idle || database.has_reason(target);
        let untried = self.untried(run, target);
        let state = &self.machine.runs()[&run];
        let failed = |need: &Subject| match need {
            Subject::File(name) => state.outcomes.get(name) == Some(&Outcome::Failed),
            _ => false,
        };
        let stopped = !state.keep_going && cell.changed.keys().any(failed);
        let protected = (is_idle && is_file || self.is_edited(target)) && !task.overwrites;
        self.monitor.begin(target);
        self.require(task.forced || due, || format!("(b) {target:?} is run, and up to date"));
        self.require(task.forced || own || stopped || untried.is_empty(), || {
            format!("(b) {target:?} is run before its needs {untried:?} were tried")
        });
        self.require(!task.askers.is_empty(), || format!("(b) {target:?} is run for nobody"));
        self.require(!protected, || format!("(h) {target:?} isn't its own, and is overwritten"));
        self.counts.overwritten += u64::from(task.overwrites);
        if !task.forced {
            self.check_settled(target);
        }
        let again = !self.monitor.ran.insert((run, target));
        let built = self.monitor.built.contains(&(run, target));
        self.require(!again && !built, || format!("(c) {target:?} is run again in {run:?}"));
    }

    /// (p): if nothing was edited since the former run of all, a target is run again only if it
    /// failed, or is built in each run, or is doubtful: an edited one is no reason.
    fn check_settled(&mut self, target: Name) {
        let is_new = self.state(target) == State::Idle;
        let lasting = self.machine.database().reached(target).iter().any(|s| self.lasts(*s));
        self.require(!self.monitor.is_settled || is_new || lasting, || {
            format!("(p) {target:?} is run again, and nothing was edited")
        });
    }

    fn lasts(&self, subject: Subject) -> bool {
        let database = self.machine.database();
        let cell = database.at(subject);
        let created = cell.created.iter().any(|name| database.cell(*name).file.is_some());
        let changed = cell.changed.iter().any(|(other, mark)| database.mark(*other) != *mark);
        let gone = cell.file.is_none() && cell.done.is_some();
        let is_edited = World::file_of(subject).map_or(false, |name| self.is_edited(name));
        let pends = matches!(cell.state, State::Failed | State::Building(_)) && !is_edited;
        pends || cell.always || created || changed || gone
    }

    fn untried(&self, run: RunId, target: Name) -> Vec<Name> {
        let database = self.machine.database();
        let needs = database.needs(target).into_iter().filter_map(|need| match need {
            Subject::File(name) => Some(name),
            _ => None,
        });
        let late = needs.filter(|name| database.is_out_of_date(*name));
        late.filter(|name| !self.monitor.attempted.contains(&(run, *name))).collect()
    }

    /// (i): a `.do` file that is a target was tried in this run, or is up to date; and it hasn't
    /// failed.
    fn check_rule(&mut self, id: TaskId) {
        let (run, target) = self.place(id);
        let task = &self.machine.tasks()[&id];
        let do_file = match task.rule.as_ref().map(|rule| rule.do_file) {
            Some(do_file) => do_file,
            None => return,
        };
        if task.failed_rule == Some(do_file) || task.overwrites {
            return; // it fails without a script; or its edit ends just now, which the rule may need
        }
        let tried = self.monitor.attempted.contains(&(run, do_file));
        let is_edited = self.is_edited(do_file);
        let good = !self.machine.database().is_out_of_date(do_file) || tried || is_edited;
        let state = self.state(do_file);
        let built = self.monitor.built.contains(&(run, do_file));
        let failed = state == State::Failed && !is_edited && !built;
        self.require(good, || {
            format!("(i) {target:?} is run by {do_file:?}, which is out of date")
        });
        self.require(!failed, || format!("(i) {target:?} is run by {do_file:?}, which failed"));
        self.counts.rules += u64::from(state != State::Idle && tried);
    }

    pub fn after_chore(&mut self, chore: &Chore) {
        for note in self.machine.take_notes() {
            match note {
                Note::Finished(run, name, ending) => {
                    self.monitor.attempted.insert((run, name));
                    self.check_outcome(run, name, ending);
                }
                Note::Skipped(run, name) => {
                    self.counts.skipped += 1;
                    self.monitor.attempted.insert((run, name));
                }
                Note::Begun(request, name) => self.check_order(request, name),
                Note::Passed(..) => {}
            }
        }
        let is_end = matches!(chore, Chore::Done { .. } | Chore::DoneKept { .. });
        if let Chore::Depend(request) = chore {
            self.note_first_rows(*request);
        }
        let decides = is_end || matches!(chore, Chore::Decide { .. } | Chore::Depend(_));
        if decides || matches!(chore, Chore::Serve(_)) {
            self.note_right(decides);
        }
    }

    /// A target that failed was run, or there was no way to run it.
    fn check_outcome(&mut self, run: RunId, name: Name, ending: Ending) {
        let is_edited = self.is_edited(name);
        let ran = self.monitor.ran.contains(&(run, name));
        self.require(ending != Ending::Failed || !is_edited || ran, || {
            format!("(h) {name:?} is edited, and failed")
        });
    }

    /// (j): names are begun in the order in which they were asked for.
    fn check_order(&mut self, request: RequestId, name: Name) {
        let asked = match self.asked.get(&request) {
            Some(asked) => asked,
            None => return,
        };
        let from = self.monitor.begun.get(&request).copied().unwrap_or(0);
        let place = asked.names.iter().skip(from).position(|other| *other == name);
        self.require(place.is_some(), || format!("(j) {name:?} is begun out of order"));
        self.monitor.begun.insert(request, from + place.unwrap_or(0) + 1);
    }

    /// Notes which names of requests are right just now.
    fn note_right(&mut self, decides: bool) {
        let mut right: Vec<(RequestId, Name)> = Vec::new();
        for (id, asked) in &self.asked {
            let is_right = |name: &&Name| self.is_right_for(asked.run, **name, asked.want, decides);
            right.extend(asked.names.iter().filter(is_right).map(|name| (*id, *name)));
        }
        right.into_iter().for_each(|(id, name)| {
            if let Some(asked) = self.asked.get_mut(&id) {
                asked.right.insert(name);
            }
        });
    }

    fn is_right_for(&self, run: RunId, name: Name, want: Want, decides: bool) -> bool {
        let database = self.machine.database();
        let cell = database.cell(name);
        let user = match self.users.get(&run) {
            Some(user) => user,
            None => return false,
        };
        if self.monitor.built.contains(&(run, name)) && cell.file == cell.done {
            return true;
        }
        let is_edited = self.is_edited(name) && self.is_told(name, user.opened);
        let is_source = cell.state == State::Idle && cell.file.is_some();
        match want {
            Want::UpToDate => is_edited || decides && self.is_right(name, user.opened),
            Want::Built => is_edited || is_source,
            Want::Overwritten => is_source,
        }
    }

    fn is_told(&self, name: Name, since: u64) -> bool {
        self.told.get(&name).map_or(false, |told| *told >= since)
    }

    /// Not stale, as far as the database knows; and what that rests on was looked at since then.
    fn is_right(&self, name: Name, opened: u64) -> bool {
        let database = self.machine.database();
        let is_told = |subject: &Subject| {
            let created = &database.at(*subject).created;
            World::file_of(*subject).map_or(true, |name| self.is_told(name, opened))
                && created.iter().all(|name| self.is_told(*name, opened))
        };
        !database.stale(name) && !self.is_edited(name) && database.reached(name).iter().all(is_told)
    }

    /// (l): a target is to have the digest of its content, or of `redo-stamp`.
    pub fn expect_digest(&mut self, target: Name, ok: bool, digest: Option<Digest>) {
        if ok {
            self.monitor.digests.insert(target, digest);
        }
    }

    /// What `//left/NAME` is to be of a failed target.
    pub fn left_stamp(&self, name: Name) -> Option<Stamp> {
        match self.monitor.left.get(&name) {
            Some(LeftBy::Known(stamp)) if self.state(name) == State::Failed => {
                Some(stamp.unwrap_or(NO_FILE))
            }
            _ => None,
        }
    }
}
