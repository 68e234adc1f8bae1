//! A tree for traces by hand: files that a test writes, looks and searches that are answered at
//! once, and scripts that a test plays.
#![allow(dead_code)]
use redo_core::{
    Action, Digest, Event, Look, Machine, Name, RequestId, RunId, Say, Stamp, TaskId, Want, Who,
};
use redo_explorer::model::Model;
use std::collections::BTreeMap;

pub const ONE: RunId = RunId(1);
pub const TWO: RunId = RunId(2);

/// The `.do` file of a target: it has the hundredth number after it.
pub fn rule(target: Name) -> Name {
    Name(target.0 + 100)
}

pub struct Tree {
    pub machine: Machine<Model>,
    pub files: BTreeMap<Name, Stamp>,
    requests: u64,
    stamps: u32,
}

impl Tree {
    /// A tree with these files, and the `.do` files of these targets. Both runs are open.
    pub fn new(sources: &[Name], targets: &[Name]) -> Tree {
        let mut tree = Tree {
            machine: Machine::new(Model::new(false), false),
            files: BTreeMap::new(),
            requests: 0,
            stamps: 10,
        };
        let rules = targets.iter().map(|target| rule(*target));
        for name in sources.iter().copied().chain(rules) {
            tree.write(name);
        }
        tree.open(ONE, false);
        tree.open(TWO, false);
        tree
    }

    /// Writes a file with new content.
    pub fn write(&mut self, name: Name) -> Stamp {
        self.stamps += 1;
        self.files.insert(name, Stamp(self.stamps));
        Stamp(self.stamps)
    }

    pub fn remove(&mut self, name: Name) {
        self.files.remove(&name);
    }

    pub fn open(&mut self, run: RunId, keep_going: bool) {
        self.stamps += 1;
        let always = Stamp(self.stamps);
        assert_eq!(self.event(Event::Open { run, keep_going, always }), []);
    }

    /// Gives an event, and does all chores. What the machine says comes back as it is.
    pub fn raw(&mut self, event: Event) -> Vec<Action> {
        self.machine.event(event);
        while self.machine.step() {}
        self.machine.take_actions()
    }

    /// Gives an event, and answers all looks and searches that it leads to.
    pub fn event(&mut self, event: Event) -> Vec<Action> {
        let mut told = self.raw(event);
        let mut rest = Vec::new();
        while !told.is_empty() {
            let (mine, others): (Vec<Action>, Vec<Action>) = told.into_iter().partition(is_look);
            rest.extend(others);
            told = mine.into_iter().flat_map(|action| self.answer(action)).collect();
        }
        rest
    }

    fn answer(&mut self, action: Action) -> Vec<Action> {
        match action {
            Action::Look { task, target } => {
                let stamp = self.files.get(&target).copied();
                self.raw(Event::Looked { task, stamp })
            }
            Action::Search { task, target } => {
                let found = self.files.get(&rule(target)).map(|stamp| (rule(target), *stamp));
                let missing = if found.is_some() { Vec::new() } else { vec![rule(target)] };
                self.raw(Event::Found { task, rule: found, missing })
            }
            _ => vec![action],
        }
    }

    fn request(&mut self) -> RequestId {
        self.requests += 1;
        RequestId::Program(self.requests)
    }

    /// A user asks.
    pub fn user(&mut self, run: RunId, want: Want, names: &[Name]) -> (RequestId, Vec<Action>) {
        let request = self.request();
        let (who, names, looks) = (Who::User, names.to_vec(), Vec::new());
        (request, self.event(Event::Ask { run, request, who, want, names, looks }))
    }

    /// The event of a script that asks for names, none of which is late.
    pub fn asking(&mut self, run: RunId, task: TaskId, names: &[Name]) -> (RequestId, Event) {
        let request = self.request();
        let stamps = names.iter().map(|name| self.files.get(name).copied());
        let looks = stamps.map(|stamp| Look { stamp, late: false }).collect();
        let (who, want, names) = (Who::Script(task), Want::UpToDate, names.to_vec());
        (request, Event::Ask { run, request, who, want, names, looks })
    }

    /// A script asks.
    pub fn script(&mut self, run: RunId, task: TaskId, names: &[Name]) -> (RequestId, Vec<Action>) {
        let (request, event) = self.asking(run, task, names);
        (request, self.event(event))
    }

    /// A script calls `redo-ifcreate`, `redo-always` or `redo-stamp`, by the event for its request.
    pub fn call(&mut self, event: impl FnOnce(RequestId) -> Event) -> (RequestId, Vec<Action>) {
        let request = self.request();
        (request, self.event(event(request)))
    }

    /// A script ends well, and its target has new content.
    pub fn end(&mut self, task: TaskId) -> Vec<Action> {
        let target = self.machine.tasks()[&task].target;
        let stamp = self.write(target);
        self.end_with(task, stamp)
    }

    /// A script ends well, and its target has this content.
    pub fn end_with(&mut self, task: TaskId, stamp: Stamp) -> Vec<Action> {
        let target = self.machine.tasks()[&task].target;
        self.files.insert(target, stamp);
        let content = Some(Digest(u64::from(stamp.0)));
        self.event(Event::Ended { task, ok: true, stamp: Some(stamp), content })
    }

    /// A script fails, and its target is as it was.
    pub fn fail(&mut self, task: TaskId) -> Vec<Action> {
        let target = self.machine.tasks()[&task].target;
        let stamp = self.files.get(&target).copied();
        self.event(Event::Ended { task, ok: false, stamp, content: None })
    }

    /// Tells the machine of a file as it is now.
    pub fn tell(&mut self, name: Name) -> Vec<Action> {
        let stamp = self.files.get(&name).copied();
        self.event(Event::File { run: ONE, name, stamp })
    }

    /// Builds a target that needs these names, which are up to date, in the run.
    pub fn build(&mut self, run: RunId, target: Name, needs: &[Name]) {
        let (_, actions) = self.user(run, Want::UpToDate, &[target]);
        let task = run_of(&actions, target);
        let (request, actions) = self.script(run, task, needs);
        assert!(answers(&actions, request, true), "{actions:?}");
        self.end(task);
    }

    pub fn is_out_of_date(&self, name: Name) -> bool {
        redo_core::Database::is_out_of_date(self.machine.database(), name)
    }
}

fn is_look(action: &Action) -> bool {
    matches!(action, Action::Look { .. } | Action::Search { .. })
}

/// The task whose script is run for a target.
pub fn run_of(actions: &[Action], name: Name) -> TaskId {
    let mut runs = actions.iter().filter_map(|action| match action {
        Action::Run { task, target, .. } if *target == name => Some(*task),
        _ => None,
    });
    runs.next_back().unwrap_or_else(|| panic!("{name:?} isn't run: {actions:?}"))
}

/// The targets whose scripts are run, in this order.
pub fn targets_run(actions: &[Action]) -> Vec<Name> {
    let runs = actions.iter().filter_map(|action| match action {
        Action::Run { target, .. } => Some(*target),
        _ => None,
    });
    runs.collect()
}

/// Whether a request is answered in this way.
pub fn answers(actions: &[Action], request: RequestId, right: bool) -> bool {
    actions.contains(&Action::Answer { request, right })
}

/// Whether something is said.
pub fn says(actions: &[Action], request: RequestId, what: Say) -> bool {
    actions.contains(&Action::Say { request, what })
}
