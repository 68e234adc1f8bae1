//! The machine: its state, and what an event or a chore leads to.
use crate::action::{Action, Say};
use crate::chore::Chore;
use crate::database::{Command, Database, Reply};
use crate::event::{Event, Who};
use crate::name::{Name, RequestId, RunId, Stamp, Subject, TaskId};
use crate::request::Request;
use crate::run::Run;
use crate::task::{Ending, Phase, Rule, Task};
use std::collections::{BTreeMap, BTreeSet, VecDeque};

/// What the machine did, for who checks it.
#[derive(Clone, PartialEq, Eq, Debug)]
pub enum Note {
    /// A name of a request has its turn.
    Begun(RequestId, Name),
    /// A name that a script asks for is right as it is: no task is made for it.
    Passed(RunId, Name),
    /// A guess was given up, or not made, since it would close a ring.
    Skipped(RunId, Name),
    /// A task has ended.
    Finished(RunId, Name, Ending),
}

/// Decides for all runs of one tree.
#[derive(Clone, Debug)]
pub struct Machine<D> {
    pub(crate) database: D,
    pub(crate) runs: BTreeMap<RunId, Run>,
    pub(crate) tasks: BTreeMap<TaskId, Task>,
    pub(crate) requests: BTreeMap<RequestId, Request>,
    /// The task that has the lock of a name, and those that wait for it.
    pub(crate) owners: BTreeMap<Name, TaskId>,
    pub(crate) lines: BTreeMap<Name, VecDeque<TaskId>>,
    /// The task of a run for a name.
    pub(crate) wanted: BTreeMap<(RunId, Name), TaskId>,
    /// The tasks whose scripts run, and were answered for a name.
    pub(crate) readers: BTreeMap<Name, BTreeSet<TaskId>>,
    pub(crate) agenda: VecDeque<Chore>,
    pub(crate) actions: Vec<Action>,
    pub(crate) notes: Option<Vec<Note>>,
    pub(crate) tasks_made: u64,
    pub(crate) requests_made: u64,
    pub(crate) turns: u64,
}

impl<D: Database> Machine<D> {
    /// A machine without runs. It makes notes if `is_watched`; these are to be taken then.
    pub fn new(database: D, is_watched: bool) -> Machine<D> {
        Machine {
            database,
            runs: BTreeMap::new(),
            tasks: BTreeMap::new(),
            requests: BTreeMap::new(),
            owners: BTreeMap::new(),
            lines: BTreeMap::new(),
            wanted: BTreeMap::new(),
            readers: BTreeMap::new(),
            agenda: VecDeque::new(),
            actions: Vec::new(),
            notes: is_watched.then(Vec::new),
            tasks_made: 0,
            requests_made: 0,
            turns: 0,
        }
    }

    /// Has notes made from now on, or no more. Those that weren't taken are lost.
    pub fn watch(&mut self, is_watched: bool) {
        self.notes = is_watched.then(Vec::new);
    }

    /// Takes an event: puts its chores on the agenda, which has to be empty.
    pub fn event(&mut self, event: Event) {
        assert!(self.agenda.is_empty(), "the chores of the last event come first");
        match event {
            Event::Open { run, keep_going, always } => self.open(run, keep_going, always),
            Event::Slot { run } => self.slot(run),
            Event::File { run, name, stamp } => self.tell(run, Subject::File(name), stamp),
            Event::Touched { run, name } => self.touched(run, name),
            Event::Unlocked { name } => self.unlocked(name),
            Event::Ask { run, request, who, want, names, looks } => {
                if self.may_ask(run, who) {
                    let depth = self.depth_of(who);
                    self.ask(request, Request::new(run, who, want, depth, names.clone()));
                    self.note_looks(request, &names, &looks);
                } else {
                    self.actions.push(Action::Answer { request, right: false });
                }
            }
            Event::Left { request } => self.left(request),
            Event::Looked { task, stamp } => self.looked(task, stamp),
            Event::Found { task, rule, missing } => self.found(task, rule, missing),
            Event::Close { run } => self.close(run),
            _ => self.event_of_a_script(event),
        }
    }

    fn event_of_a_script(&mut self, event: Event) {
        match event {
            Event::IfCreate { task, request, names, stamps } => {
                if let Some(run) = self.run_of_script(task, request) {
                    for (name, stamp) in names.iter().zip(stamps) {
                        self.tell(run, Subject::File(*name), stamp);
                    }
                    self.agenda.push_back(Chore::IfCreate { task, request, names });
                }
            }
            Event::Always { task, request } => {
                if let Some(run) = self.run_of_script(task, request) {
                    self.always(run, task);
                    self.agenda.push_back(Chore::Answer { request, right: true });
                }
            }
            Event::Stamp { task, request, digest } => {
                if self.run_of_script(task, request).is_some() {
                    self.agenda.push_back(Chore::Stamp { task, digest });
                    self.agenda.push_back(Chore::Answer { request, right: true });
                }
            }
            Event::Ended { task, ok, stamp, content } => {
                if self.is_running(task) {
                    let content = content.filter(|_| stamp.is_some());
                    self.ended(task, ok, stamp, content);
                }
            }
            _ => unreachable!("an event of a user or of the shell"),
        }
    }

    /// Does the next chore. False if there is none.
    pub fn step(&mut self) -> bool {
        let chore = match self.agenda.pop_front() {
            Some(chore) => chore,
            None => return false,
        };
        match chore {
            Chore::Report { run, subject, stamp } => self.report(run, subject, stamp),
            Chore::Shadow { run, target } => self.tell_shadow(run, target),
            Chore::Note(request) => self.note_rows(request),
            Chore::Depend(request) => self.depend(request),
            Chore::Refuse(request) => self.refuse(request),
            Chore::Serve(run) => self.serve(run),
            Chore::Decide { task, searched } => self.decide(task, searched),
            Chore::Over(request) => self.over(request),
            Chore::Reply(request) => self.reply(request),
            Chore::Settle(request) => self.settle(request),
            Chore::Answer { request, right } => {
                self.actions.push(Action::Answer { request, right });
            }
            Chore::IfCreate { task, request, names } => self.if_create(task, request, names),
            Chore::CloseFail { run, target } => self.close_fail(run, target),
            Chore::CloseUnlock { run, target } => self.close_unlock(run, target),
            Chore::Forget(run) => {
                self.runs.remove(&run);
            }
            _ => self.step_of_a_task(chore),
        }
        true
    }

    fn step_of_a_task(&mut self, chore: Chore) {
        match chore {
            Chore::Rows { task, request, subjects } => self.put_rows(task, request, subjects),
            Chore::Absent { task, names } => self.note_absence(task, names),
            Chore::Take(task) => self.take(task),
            Chore::ForgetLeft(task) => {
                let target = self.task(task).target;
                self.call(task, &Command::Gone(Subject::Left(target)));
            }
            Chore::Start(task) | Chore::StartKept(task) => {
                let target = self.task(task).target;
                self.call(task, &Command::Start(target));
            }
            Chore::Launch(task) => self.launch(task),
            Chore::Doubt(task) => {
                let target = self.task(task).target;
                self.call(task, &Command::Always(target));
            }
            Chore::Stamp { task, digest } => {
                self.task_mut(task).is_stamped = true;
                let target = self.task(task).target;
                self.call(task, &Command::Stamp(target, digest));
            }
            Chore::Done { task, stamp } | Chore::DoneKept { task, stamp } => self.done(task, stamp),
            Chore::Fail(task) => self.fail(task),
            Chore::Unlock { task, ending } => self.unlock(task, ending),
            _ => unreachable!("a chore of a request or of a run"),
        }
    }

    /// The actions since they were taken last, in their order.
    pub fn take_actions(&mut self) -> Vec<Action> {
        std::mem::take(&mut self.actions)
    }

    /// The notes since they were taken last, in their order.
    pub fn take_notes(&mut self) -> Vec<Note> {
        self.notes.as_mut().map(std::mem::take).unwrap_or_default()
    }

    // ---- what the chores share

    /// Does a command about the target of a task, in its run.
    pub(crate) fn call(&mut self, task: TaskId, command: &Command) -> Reply {
        let Task { run, target, phase, .. } = *self.task(task);
        let reply = self.database.obey(run, command);
        let is_lock = matches!(command, Command::Lock(_));
        let is_done = reply != Reply::Refused && (is_lock || reply != Reply::Busy);
        assert!(is_done, "{reply:?}: {command:?}");
        if phase != Phase::Keeping {
            self.changed(run, target);
        }
        reply
    }

    /// Puts chores before all others, in their order.
    pub(crate) fn first(&mut self, chores: Vec<Chore>) {
        for chore in chores.into_iter().rev() {
            self.agenda.push_front(chore);
        }
    }

    pub(crate) fn note(&mut self, note: Note) {
        if let Some(notes) = &mut self.notes {
            notes.push(note);
        }
    }

    /// Says something to who waits for a request: to nobody if that is a guess; if it is a rule,
    /// to those who ask for its target. Returns whether somebody hears it.
    pub(crate) fn say(&mut self, request: RequestId, what: &Say) -> bool {
        match self.requests[&request].who {
            Who::User | Who::Script(_) => {
                self.actions.push(Action::Say { request, what: what.clone() });
                true
            }
            Who::Rule(task) => self.say_of(task, what),
            Who::Guess(_) => false,
        }
    }

    /// Says something to all who ask for a task. Returns whether somebody hears it.
    pub(crate) fn say_of(&mut self, task: TaskId, what: &Say) -> bool {
        let askers: Vec<RequestId> = self.task(task).askers.iter().copied().collect();
        let mut heard = false;
        for asker in askers {
            heard |= self.say(asker, what);
        }
        heard
    }

    pub(crate) fn task(&self, task: TaskId) -> &Task {
        self.tasks.get(&task).expect("a task that hasn't ended")
    }

    pub(crate) fn task_mut(&mut self, task: TaskId) -> &mut Task {
        self.tasks.get_mut(&task).expect("a task that hasn't ended")
    }

    pub(crate) fn run_mut(&mut self, run: RunId) -> &mut Run {
        self.runs.get_mut(&run).expect("a run that is open")
    }

    pub(crate) fn request_mut(&mut self, request: RequestId) -> &mut Request {
        self.requests.get_mut(&request).expect("a request that is open")
    }

    // ---- events that are short

    fn open(&mut self, run: RunId, keep_going: bool, always: Stamp) {
        self.runs.entry(run).or_insert_with(|| Run::new(keep_going, always));
        if self.database.file(Subject::Always).is_some() {
            self.tell_always(run);
        }
    }

    fn slot(&mut self, run: RunId) {
        if let Some(state) = self.runs.get_mut(&run) {
            state.free += 1;
            state.borrowed += 1;
            self.agenda.push_back(Chore::Serve(run));
        } else {
            self.actions.push(Action::Return { run, slots: 1 });
        }
    }

    fn looked(&mut self, task: TaskId, stamp: Option<Stamp>) {
        let (run, target) = match self.tasks.get(&task) {
            Some(&Task { run, target, phase: Phase::Looking, .. }) => (run, target),
            _ => return,
        };
        self.tell(run, Subject::File(target), stamp);
        self.agenda.push_back(Chore::Decide { task, searched: false });
    }

    fn found(&mut self, task: TaskId, rule: Option<(Name, Stamp)>, missing: Vec<Name>) {
        let (run, target) = match self.tasks.get(&task) {
            Some(&Task { run, target, phase: Phase::Searching, .. }) => (run, target),
            _ => return,
        };
        for name in &missing {
            self.tell(run, Subject::File(*name), None);
        }
        let rule = rule.filter(|(do_file, _)| *do_file != target);
        if let Some((do_file, stamp)) = rule {
            self.tell(run, Subject::File(do_file), Some(stamp));
        } else {
            self.run_mut(run).missing.insert(target, missing.clone());
        }
        self.task_mut(task).rule = rule.map(|(do_file, _)| Rule { do_file, missing });
        self.agenda.push_back(Chore::Decide { task, searched: true });
    }

    /// The run of a script that calls. If it has ended, the answer is no.
    fn run_of_script(&mut self, task: TaskId, request: RequestId) -> Option<RunId> {
        let run = self.is_running(task).then(|| self.task(task).run);
        if run.is_none() {
            self.actions.push(Action::Answer { request, right: false });
        }
        run
    }

    pub(crate) fn is_running(&self, task: TaskId) -> bool {
        self.tasks.get(&task).map_or(false, |task| task.phase == Phase::Running)
    }
}
