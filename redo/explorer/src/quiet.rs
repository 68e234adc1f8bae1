//! What is to be true between two events: slots, locks, waits, rows, digests.
use crate::stranger::STRANGER;
use crate::world::World;
use redo_core::{
    Database, Mark, Name, Phase, Request, RequestId, Run, Stage, State, Subject, Task, TaskId,
    Waiter, Waits, Who,
};
use std::collections::BTreeSet;

impl World {
    pub fn quiet(&mut self, chores: u64, most: u64) {
        self.require(chores <= most, || format!("(e) {chores} chores, more than {most}"));
        let faults = [
            self.fault_of_slots(),
            self.fault_of_locks(),
            self.fault_of_requests(),
            self.fault_of_tasks(),
            self.fault_of_users(),
            self.fault_of_rows(),
            self.fault_of_names(),
        ];
        let ring = self.has_ring().then(|| "(d) a ring of waits".to_string());
        if let Some(fault) = faults.into_iter().flatten().chain(ring).next() {
            self.fault(fault);
        }
    }

    fn fault_of_slots(&self) -> Option<String> {
        self.machine.runs().values().find_map(|run| self.fault_of_run(run))
    }

    fn fault_of_run(&self, run: &Run) -> Option<String> {
        let holds = |id: &&TaskId| self.machine.tasks()[id].has_slot;
        let holders: Vec<TaskId> = run.tasks.iter().filter(holds).copied().collect();
        let all = run.free as usize + holders.len();
        if all != 1 + run.borrowed as usize {
            return Some(format!("(d) slots are lost: {all} of {} are left", 1 + run.borrowed));
        }
        if run.free > 0 && !run.queue.is_empty() {
            return Some("(d) a free slot isn't used".to_string());
        }
        let waits = holders.into_iter().find(|id| !self.works(*id));
        waits.map(|id| format!("(d) {id:?} has a slot, and waits"))
    }

    /// Whether a task with a slot waits for nothing but the shell.
    fn works(&self, id: TaskId) -> bool {
        let task = &self.machine.tasks()[&id];
        match task.phase {
            Phase::Looking => self.looks.contains(&id),
            Phase::Searching => self.searches.contains(&id),
            Phase::Running => self.is_active(id) && task.requests.is_empty(),
            _ => false,
        }
    }

    fn fault_of_locks(&self) -> Option<String> {
        let names = (0..self.setup.names() as u32).map(Name);
        names.into_iter().find_map(|name| {
            let cell = self.machine.database().cell(name);
            let owner = self.machine.owners().get(&name);
            let task = owner.and_then(|id| self.machine.tasks().get(id));
            let run = task.filter(|task| task.phase != Phase::Barred).map(|task| task.run);
            if cell.holder.filter(|holder| *holder != STRANGER) != run {
                return Some(format!("(c) {name:?} is locked by {:?}, not {run:?}", cell.holder));
            }
            let scripts = self.scripts.values().filter(|script| script.target == name).count();
            let is_building = matches!(cell.state, State::Building(run) if run != STRANGER);
            let fits = is_building == (scripts == 1) && scripts <= 1;
            (!fits).then(|| format!("(c) {name:?} is {:?}, with {scripts} scripts", cell.state))
        })
    }

    /// (d): each that waits, waits for something, and no wait closes a ring: so if all else is
    /// still, nobody waits.
    fn fault_of_requests(&self) -> Option<String> {
        let lost = self.machine.requests().iter().find(|(id, request)| {
            let ended = request.open.iter().any(|task| !self.machine.tasks().contains_key(task));
            ended || !self.is_request_alive(**id, request)
        });
        lost.map(|(id, request)| format!("(d) {id:?} waits for nothing: {request:?}"))
    }

    fn is_request_alive(&self, id: RequestId, request: &Request) -> bool {
        let queue = &self.machine.runs()[&request.run].queue;
        let has = |waiter: Waiter| queue.values().any(|other| *other == waiter);
        match (request.stage, request.who) {
            (Stage::Asked, _) => false,
            (Stage::Going, _) => {
                !request.open.is_empty() || !request.todo.is_empty() && has(Waiter::Begin(id))
            }
            (Stage::Back, Who::Script(task)) => has(Waiter::Back(task)),
            (Stage::Back, _) => false,
        }
    }

    fn fault_of_tasks(&self) -> Option<String> {
        let lost = self.machine.tasks().iter().find(|(id, task)| !self.is_task_alive(**id, task));
        let works =
            |task: &Task| matches!(task.phase, Phase::Looking | Phase::Searching | Phase::Running);
        let mut tasks = self.machine.tasks().iter();
        let unasked = tasks.find(|(_, task)| task.askers.is_empty() && !works(task));
        lost.map(|(id, task)| format!("(d) {id:?} waits for nothing: {task:?}"))
            .or_else(|| unasked.map(|(id, task)| format!("(d) {id:?} waits for nobody: {task:?}")))
    }

    fn is_task_alive(&self, id: TaskId, task: &Task) -> bool {
        let machine = &self.machine;
        match task.phase {
            Phase::Parked => {
                let owner = machine.owners().get(&task.target);
                machine.lines().get(&task.target).map_or(false, |line| line.contains(&id))
                    && owner.map_or(false, |owner| machine.tasks().contains_key(owner))
            }
            Phase::Barred => {
                let holder = machine.database().cell(task.target).holder;
                holder == Some(STRANGER) && machine.owners().get(&task.target) == Some(&id)
            }
            Phase::Wants => {
                let mut queue = machine.runs()[&task.run].queue.values();
                queue.any(|waiter| *waiter == Waiter::Go(id))
            }
            Phase::Looking => self.looks.contains(&id),
            Phase::Searching => self.searches.contains(&id),
            Phase::Needing(request) | Phase::Preparing(request) => {
                machine.requests().contains_key(&request)
            }
            Phase::Running => self.scripts.get(&id).map_or(false, |script| {
                script.blocked.map_or(true, |request| machine.requests().contains_key(&request))
            }),
            Phase::Busy | Phase::Keeping => false,
        }
    }

    fn fault_of_users(&self) -> Option<String> {
        let lost = self.users.iter().find(|(_, user)| {
            let waits = user.request.filter(|_| user.answer.is_none());
            waits.map_or(false, |request| !self.machine.requests().contains_key(&request))
        });
        lost.map(|(run, _)| format!("(d) the request of {run:?} is lost"))
    }

    fn has_ring(&self) -> bool {
        let mut done = BTreeSet::new();
        let mut tasks = self.machine.tasks().keys();
        tasks.any(|id| self.leads_to_ring(*id, &mut BTreeSet::new(), &mut done))
    }

    fn leads_to_ring(
        &self,
        id: TaskId,
        on_path: &mut BTreeSet<TaskId>,
        done: &mut BTreeSet<TaskId>,
    ) -> bool {
        if done.contains(&id) {
            return false;
        }
        if !on_path.insert(id) {
            return true;
        }
        let waits = self.machine.waits_for(id, Waits::All);
        let found = waits.into_iter().any(|next| self.leads_to_ring(next, on_path, done));
        on_path.remove(&id);
        done.insert(id);
        found
    }

    /// (f): if a name has another mark than in the row that stood when it was first answered for,
    /// the target is out of date; and for good, if that was while it was built.
    fn fault_of_rows(&mut self) -> Option<String> {
        let database = self.machine.database();
        let mut changed = Vec::new();
        let mut fault = None;
        for (target, rows) in &self.monitor.first {
            let differs = rows.iter().find(|(subject, row)| self.differs(**subject, **row));
            let state = database.cell(*target).state;
            if matches!(state, State::Building(_)) && differs.is_some() {
                changed.push(*target);
            }
            let lost = differs.is_some() || self.monitor.changed.contains(target);
            if state == State::Built && lost && !database.is_out_of_date(*target) {
                fault =
                    Some(format!("(f) {target:?} is up to date, but {differs:?} differs, or did"));
            }
        }
        self.monitor.changed.extend(changed);
        fault
    }

    /// Whether a name isn't any more what a row says, or its file isn't what its build left.
    fn differs(&self, subject: Subject, row: Mark) -> bool {
        let database = self.machine.database();
        let cell = database.at(subject);
        let is_unlike = cell.state == State::Built && cell.file != cell.done;
        let is_edited = match subject {
            Subject::File(name) => self.is_edited(name),
            _ => false,
        };
        database.mark(subject) != row || is_unlike || is_edited
    }

    /// (h) and (l): what `//edited/..` and `//left/..` say, and digests.
    fn fault_of_names(&self) -> Option<String> {
        let names = (0..self.setup.names() as u32).map(Name);
        names.into_iter().find_map(|name| {
            let database = self.machine.database();
            let cell = database.cell(name);
            let is_building = matches!(cell.state, State::Building(_));
            let edited = cell.file.filter(|_| !is_building && self.is_edited(name));
            let told = database.at(Subject::Edited(name)).file;
            if told != edited {
                return Some(format!("(h) //edited of {name:?} is {told:?}, not {edited:?}"));
            }
            let (left, known) = (database.at(Subject::Left(name)).file, self.left_stamp(name));
            if left != known && cell.state == State::Failed {
                return Some(format!("(h) //left of {name:?} is {left:?}, not {known:?}"));
            }
            let digest = self.monitor.digests.get(&name).filter(|_| cell.state == State::Built);
            let fits = digest.map_or(true, |digest| cell.digest == *digest);
            (!fits).then(|| format!("(l) {name:?} has the digest {:?}", cell.digest))
        })
    }

    /// What the database knows of each name, for a trace.
    pub fn print_marks(&self) {
        let database = self.machine.database();
        for (subject, cell) in &database.cells {
            println!("{subject:?}: {:?} {cell:?}", database.mark(*subject));
        }
    }
}
