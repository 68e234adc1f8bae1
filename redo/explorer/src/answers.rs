//! Checks of what the machine says: answers, rings, warnings, doubts.
use crate::world::{Kind, World};
use redo_core::{
    Action, Database, Look, Mark, Name, RequestId, RunId, Say, State, Subject, TaskId, Waits, Want,
};
use std::collections::BTreeSet;

impl World {
    pub fn check_action(&mut self, action: &Action) {
        match action {
            Action::Answer { request, right } => self.check_answer(*request, *right),
            Action::Run { task, target, .. } => {
                let mut others = self.scripts.iter();
                let other = others.any(|(id, script)| id != task && script.target == *target);
                self.require(!other, || format!("(c) two scripts of {target:?} at once"));
            }
            Action::Say { request, what } => {
                let is_program = matches!(request, RequestId::Program(_));
                self.require(is_program, || format!("(k) {what:?} is said of a guess"));
                if let Say::Ring(names) = what {
                    let is_ring = self.is_firm_ring(names);
                    self.require(is_ring, || format!("(d) {names:?} is no ring"));
                }
            }
            _ => {}
        }
    }

    fn check_answer(&mut self, request: RequestId, right: bool) {
        let asked = match self.asked.get(&request) {
            Some(asked) => asked,
            None => return,
        };
        let (run, task, names, want) = (asked.run, asked.task, asked.names.clone(), asked.want);
        let (ok, kind, absent) = (asked.right.clone(), asked.kind, asked.absent.clone());
        if right {
            for name in &names {
                let cell = self.machine.database().cell(*name);
                let built = self.monitor.built.contains(&(run, *name)) && cell.file == cell.done;
                self.require(built || ok.contains(name), || {
                    format!("(a) {request:?} of {run:?} is right, but {name:?} never was")
                });
            }
        }
        match task {
            Some(task) if kind == Kind::Names && want == Want::UpToDate => {
                if !right {
                    self.check_refusal(task, request);
                    self.check_absences(task, request);
                }
                self.note_answer(task, &names, right, &absent);
            }
            None => self.check_warnings(run, &names),
            Some(_) => {}
        }
    }

    /// Notes the rows on what a script was answered for, for (f).
    fn note_answer(&mut self, task: TaskId, names: &[Name], right: bool, absent: &BTreeSet<Name>) {
        let target = self.machine.tasks()[&task].target;
        if names.contains(&target) {
            return; // it asked for itself, and learnt nothing of the other names
        }
        for name in names {
            let database = self.machine.database();
            let mut subjects = vec![Subject::File(*name), Subject::Edited(*name)];
            if self.is_edited(*name) {
                subjects.reverse();
            }
            let rows = subjects.into_iter().filter_map(|s| Some((s, database.row(target, s)?)));
            let row = rows.into_iter().next();
            if let Some((subject, mark)) = row {
                let rows = self.monitor.first.entry(target).or_default();
                rows.entry(subject).or_insert(mark);
            }
            self.require(row.is_some() || !right, || {
                format!("(f) {target:?} has no row on {name:?}")
            });
            let answered = self.monitor.answered.get(&target);
            let is_new = answered.map_or(true, |answered| !answered.contains(name));
            if is_new || !right {
                self.note_cause(target, *name, right, absent.contains(name));
            }
            self.monitor.answered.entry(target).or_default().insert(*name);
        }
    }

    /// The rows of a request that goes on: on what the script wasn't answered for before.
    pub fn note_first_rows(&mut self, request: RequestId) {
        let asked = match self.asked.get(&request) {
            Some(asked) => asked,
            None => return,
        };
        let task = match asked.task.and_then(|task| self.machine.tasks().get(&task)) {
            Some(task) => task,
            None => return,
        };
        let answered = self.monitor.answered.get(&task.target);
        let is_new = |name: &Name| answered.map_or(true, |answered| !answered.contains(name));
        let is_asked = |name: Name| asked.names.contains(&name) && is_new(&name);
        let rows = self.machine.database().cell(task.target).changed.iter();
        let new = rows.filter(|(subject, _)| World::file_of(**subject).map_or(false, is_asked));
        let new: Vec<(Subject, Mark)> = new.map(|(subject, mark)| (*subject, *mark)).collect();
        self.monitor.asked.entry(task.target).or_default().extend(new);
    }

    /// (f), of a script that does without a name: its rows are those of when it asked; and if no
    /// row can show that the name can be had, the target is to be built once more.
    fn check_refusal(&mut self, task: TaskId, request: RequestId) {
        let asked = match self.asked.get(&request) {
            Some(asked) => asked,
            None => return,
        };
        let target = self.machine.tasks()[&task].target;
        let database = self.machine.database();
        let cell = database.cell(target);
        let answered = self.monitor.answered.get(&target);
        let is_new = |name: Name| {
            asked.names.contains(&name)
                && answered.map_or(true, |answered| !answered.contains(&name))
        };
        let mut noted = self.monitor.asked.get(&target).into_iter().flatten();
        let kept = noted.all(|(subject, mark)| {
            let is_about = World::file_of(*subject).map_or(false, is_new);
            !is_about || cell.changed.get(subject) == Some(mark)
        });
        let is_built = |name: &Name| database.cell(*name).state == State::Built;
        let hidden = asked.refused.iter().any(is_built);
        let shown = !hidden || self.is_doubtful(task);
        if hidden {
            self.monitor.changed.insert(target);
        }
        self.require(shown, || format!("(f) no row of {target:?} shows what it did without"));
        self.require(kept, || format!("(f) rows of {target:?} were renewed after a failure"));
    }

    /// (f): each `.do` file that would have made a name which a script does without has a row.
    fn check_absences(&mut self, task: TaskId, request: RequestId) {
        let asked = match self.asked.get(&request) {
            Some(asked) => asked,
            None => return,
        };
        let (target, doubtful) = (self.machine.tasks()[&task].target, self.is_doubtful(task));
        let database = self.machine.database();
        let cell = database.cell(target);
        let absent = |name: &&Name| database.mark(Subject::File(**name)) == Mark::Absent;
        let names = asked.refused.iter().filter(absent);
        let rules = names.flat_map(|name| self.setup.candidates(*name));
        let missing = rules.filter(|rule| database.cell(*rule).file.is_none() && *rule != target);
        let bare: Vec<Name> = missing.filter(|rule| !cell.created.contains(rule)).collect();
        self.require(bare.is_empty() || doubtful, || {
            format!("(f) {target:?} has no rows on {bare:?}, which would do")
        });
    }

    fn is_doubtful(&self, task: TaskId) -> bool {
        self.machine.tasks()[&task].doubtful
    }

    /// A script has read its `.do` file, as the row on it says.
    pub fn note_rule(&mut self, task: TaskId) {
        let task = &self.machine.tasks()[&task];
        let (target, do_file) = (task.target, task.rule.as_ref().map(|rule| rule.do_file));
        let database = self.machine.database();
        let rows = database.cell(target).changed.iter();
        let rows: Vec<(Subject, Mark)> = rows
            .filter(|(subject, _)| World::file_of(**subject) == do_file)
            .map(|(subject, mark)| (*subject, *mark))
            .collect();
        self.require(rows.len() == 1, || format!("(f) {target:?} has no row on its .do file"));
        self.monitor.first.entry(target).or_default().extend(rows);
        self.monitor.answered.entry(target).or_default().extend(do_file);
    }

    /// (m): the run has warned of each edited target that it wanted, or that these are built from.
    fn check_warnings(&mut self, run: RunId, names: &[Name]) {
        let database = self.machine.database();
        let below: BTreeSet<Name> = names
            .iter()
            .flat_map(|name| database.reached_through(*name))
            .filter(|name| self.is_edited(*name))
            .collect();
        let user = match self.users.get(&run) {
            Some(user) => user,
            None => return,
        };
        let silent: Vec<Name> =
            below.into_iter().filter(|name| !user.warned.contains(name)).collect();
        let overwritten = user.want == Want::Overwritten;
        self.require(silent.is_empty() || overwritten, || {
            format!("(m) {run:?} hasn't warned of {silent:?}")
        });
    }

    /// A script asks: what it asks for late counts as changed, if it asks for the first time.
    pub fn note_first_look(&mut self, task: TaskId, names: &[Name], looks: &[Look]) {
        let target = self.scripts[&task].target;
        if names.contains(&target) {
            return;
        }
        let answered = self.monitor.answered.get(&target);
        let is_new = |name: &Name| answered.map_or(true, |answered| !answered.contains(name));
        let mut looked = names.iter().zip(looks);
        let late = looked
            .any(|(name, look)| look.late && is_new(name) && self.state(*name) == State::Idle);
        if late {
            self.counts.late += 1;
            self.monitor.changed.insert(target);
        }
    }

    /// `//always` has the stamp of a run that began later: the target is to be built once more.
    pub fn expect_doubt_of_always(&mut self, task: TaskId) {
        let script = &self.scripts[&task];
        let own = self.users[&script.run].always;
        let target = script.target;
        let told = self.always_told();
        let is_other = told.map_or(false, |told| told != own);
        if is_other && self.machine.runs()[&script.run].has_told_always {
            self.monitor.may_doubt.insert(target);
            if told.map_or(false, |told| told > own) {
                self.monitor.changed.insert(target);
            }
        }
    }

    /// (n): only what changed while it was built is doubtful.
    pub fn check_doubt(&mut self, task: TaskId) {
        self.counts.doubts += 1;
        let target = self.machine.tasks()[&task].target;
        let monitor = &self.monitor;
        let has_cause = monitor.changed.contains(&target) || monitor.may_doubt.contains(&target);
        self.require(has_cause, || format!("(n) {target:?} is doubtful for no reason"));
    }

    /// Notes what a script reads that wasn't there when it asked, or isn't any more; and what it
    /// does without, if no row shows that.
    fn note_cause(&mut self, target: Name, name: Name, right: bool, absent: bool) {
        let database = self.machine.database();
        let mark = database.mark(Subject::File(name));
        let came = absent && matches!(mark, Mark::File(_));
        if right && (came || mark == Mark::Absent) {
            self.monitor.changed.insert(target);
        }
        if !right && (mark != Mark::Pending || self.is_edited(name)) {
            self.monitor.may_doubt.insert(target);
        }
    }

    /// (f), second half: a rule that wasn't there for what a script did without is there now.
    pub fn note_absence(&mut self, task: TaskId, names: &[Name]) {
        let target = self.machine.tasks()[&task].target;
        let database = self.machine.database();
        if names.iter().any(|name| database.cell(*name).file.is_some()) {
            self.monitor.changed.insert(target);
        }
    }

    /// Whether each target of a ring has a task that waits firmly for one of the next.
    fn is_firm_ring(&self, names: &[Name]) -> bool {
        let is_closed = names.len() > 1 && names.first() == names.last();
        let waits = names[..names.len() - 1].windows(2).all(|pair| self.waits(pair[0], pair[1]));
        is_closed && waits
    }

    fn waits(&self, from: Name, to: Name) -> bool {
        let is_of = |id: &TaskId, name: Name| self.machine.tasks()[id].target == name;
        let tasks = self.machine.tasks().keys().filter(|id| is_of(id, from));
        let mut next = tasks.flat_map(|id| self.machine.waits_for(*id, Waits::Firm));
        next.any(|id| is_of(&id, to))
    }
}
