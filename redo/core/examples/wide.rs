//! What the machine costs: a script asks for many targets, each of which asks for one source. The
//! database is as quick as it can be, and knows nothing of rows.
use redo_core::{
    Action, Command, Database, Digest, Event, Look, Machine, Mark, Name, Reply, RequestId, RunId,
    Stamp, State, Subject, TaskId, Want, Who,
};
use std::time::Instant;

const ALL: Name = Name(0);
const SOURCE: Name = Name(1);
const RULE: Name = Name(2);
const FIRST: u32 = 3;
const RUN: RunId = RunId(1);

struct Quick {
    states: Vec<State>,
}

impl Quick {
    fn has_file(&self, name: Name) -> bool {
        name == SOURCE || name == RULE || self.states[name.0 as usize] == State::Built
    }
}

impl Database for Quick {
    fn obey(&mut self, run: RunId, command: &Command) -> Reply {
        match command {
            Command::Start(name) => self.states[name.0 as usize] = State::Building(run),
            Command::Done(name, _) => self.states[name.0 as usize] = State::Built,
            Command::IfChange(_, names) => {
                let is_stale = |subject: &&Subject| match subject {
                    Subject::File(name) => !self.has_file(*name),
                    _ => false,
                };
                let stale: Vec<Subject> = names.iter().filter(is_stale).copied().collect();
                return if stale.is_empty() { Reply::Done } else { Reply::Stale(stale) };
            }
            _ => {}
        }
        Reply::Done
    }
    fn is_out_of_date(&self, target: Name) -> bool {
        self.states[target.0 as usize] != State::Built
    }
    fn has_reason(&self, target: Name) -> bool {
        self.is_out_of_date(target)
    }
    fn state(&self, name: Name) -> State {
        self.states[name.0 as usize]
    }
    fn file(&self, subject: Subject) -> Option<Stamp> {
        match subject {
            Subject::File(name) if self.has_file(name) => Some(Stamp(5)),
            _ => None,
        }
    }
    fn is_as_built(&self, _: Name) -> bool {
        true
    }
    fn has_own_names(&self, _: Name) -> bool {
        true
    }
    fn needs(&self, _: Name) -> Vec<Subject> {
        Vec::new()
    }
    fn edited(&self) -> Vec<Name> {
        Vec::new()
    }
    fn mark(&self, subject: Subject) -> Mark {
        self.file(subject).map_or(Mark::Absent, Mark::File)
    }
    fn row(&self, _: Name, subject: Subject) -> Option<Mark> {
        Some(self.mark(subject))
    }
}

/// What the shell answers to an action.
fn answer(action: &Action, targets: u32) -> Option<Event> {
    let stamp = Some(Stamp(5));
    match action {
        Action::Look { task, .. } => Some(Event::Looked { task: *task, stamp: None }),
        Action::Search { task, .. } => {
            let rule = Some((RULE, Stamp(5)));
            Some(Event::Found { task: *task, rule, missing: Vec::new() })
        }
        Action::Run { task, target, .. } => {
            let is_all = *target == ALL;
            let names =
                if is_all { (FIRST..FIRST + targets).map(Name).collect() } else { vec![SOURCE] };
            let stamp = if is_all { None } else { stamp };
            let looks = vec![Look { stamp, late: false }; names.len()];
            let (request, who) = (RequestId::Program(task.0), Who::Script(*task));
            Some(Event::Ask { run: RUN, request, who, want: Want::UpToDate, names, looks })
        }
        Action::Answer { request: RequestId::Program(number), .. } if *number > 0 => {
            let content = Some(Digest(5));
            Some(Event::Ended { task: TaskId(*number), ok: true, stamp, content })
        }
        _ => None,
    }
}

fn main() {
    let targets: u32 = std::env::args().nth(1).and_then(|word| word.parse().ok()).unwrap_or(10_000);
    let states = vec![State::Idle; (targets + FIRST) as usize];
    let mut machine = Machine::new(Quick { states }, false);
    let began = Instant::now();
    let request = RequestId::Program(0);
    let (who, want, names, looks) = (Who::User, Want::UpToDate, vec![ALL], Vec::new());
    let mut events = vec![
        Event::Ask { run: RUN, request, who, want, names, looks },
        Event::Open { run: RUN, keep_going: false, always: Stamp(9) },
    ];
    while let Some(event) = events.pop() {
        machine.event(event);
        while machine.step() {}
        let actions = machine.take_actions();
        events.extend(actions.iter().filter_map(|action| answer(action, targets)));
    }
    assert!(machine.tasks().is_empty() && machine.requests().is_empty(), "it isn't over");
    let micros = began.elapsed().as_micros();
    println!("{targets} targets: {} microseconds each", micros / u128::from(targets));
}
