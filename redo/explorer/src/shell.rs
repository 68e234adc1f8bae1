//! What the world does for users and for the machine: calls, edits, kills, actions.
use crate::random::mix;
use crate::script::{want, Script, FAILED};
use crate::stranger::STRANGER;
use crate::world::{Asked, Kind, User, World};
use redo_core::{Action, Event, Look, Name, RequestId, RunId, Say, State, Subject, TaskId, Want};
use std::collections::{BTreeSet, VecDeque};

impl World {
    /// A user calls. In a last run all targets are asked for.
    pub fn open(&mut self, last: Option<Vec<Name>>) {
        self.runs_made = if self.users.is_empty() { 1 } else { self.runs_made + 1 };
        self.runs_made += u32::from(RunId(self.runs_made) == STRANGER);
        let run = RunId(self.runs_made);
        let keep_going = last.is_some() || self.random.chance(40);
        let kind = if last.is_some() { 0 } else { self.random.below(100) };
        let want = match kind {
            0..=69 => Want::UpToDate,
            70..=89 => Want::Built,
            _ => Want::Overwritten,
        };
        let mut names = last.unwrap_or_else(|| self.some_names());
        if want == Want::Overwritten {
            let source = self.setup.targets..self.setup.files();
            names.retain(|name| !source.contains(&(name.0 as usize))); // scripts read those early
        }
        let always = self.new_stamp();
        self.event(Event::Open { run, keep_going, always });
        let mut looks: Vec<Name> = self.mentioned.iter().copied().collect();
        for at in (1..looks.len()).rev() {
            looks.swap(at, self.random.below(at + 1));
        }
        let user = User {
            opened: self.time,
            always,
            keep_going,
            looks,
            request: None,
            names,
            want,
            answer: None,
            wants: 0,
            borrowed: 0,
            warned: BTreeSet::new(),
        };
        self.users.insert(run, user);
    }

    fn some_names(&mut self) -> Vec<Name> {
        let setup = self.setup;
        let mut names: Vec<Name> = Vec::new();
        for _ in 0..1 + self.random.below(3) {
            let few = self.random.chance(85);
            let file = self.random.below(if few { setup.targets } else { setup.files() });
            let file = Name(file as u32);
            let is_rule = setup.built_rules && few && self.random.chance(15);
            let name = if is_rule { setup.own_do(file) } else { file };
            if !names.contains(&name) {
                names.push(name);
            }
        }
        names
    }

    /// A look at a name that the database knows; after all of them, the user asks.
    pub fn look_at_first(&mut self, run: RunId) {
        let user = match self.users.get_mut(&run) {
            Some(user) => user,
            None => return,
        };
        if let Some(name) = user.looks.pop() {
            self.told.insert(name, self.time);
            self.event(Event::File { run, name, stamp: self.stamp(name) });
            return;
        }
        let (names, want) = (user.names.clone(), user.want);
        let id = self.new_request(run, None, want, names);
        if let Some(user) = self.users.get_mut(&run) {
            user.request = Some(id);
        }
        self.send(id);
    }

    /// Tells the machine of a request.
    pub fn send(&mut self, id: RequestId) {
        let asked = &self.asked[&id];
        let (run, want, names, task) = (asked.run, asked.want, asked.names.clone(), asked.task);
        let who = World::who(asked);
        let mut looks = Vec::new();
        if let (Some(task), Want::UpToDate) = (task, want) {
            looks = names.iter().map(|name| self.look_for_script(task, *name)).collect();
            let time = self.time;
            self.told.extend(names.iter().map(|name| (*name, time)));
            self.note_first_look(task, &names, &looks);
        }
        self.event(Event::Ask { run, request: id, who, want, names, looks });
    }

    fn look_for_script(&self, task: TaskId, name: Name) -> Look {
        let file = self.files.get(&name);
        let began = self.scripts[&task].began;
        Look {
            stamp: file.map(|file| file.stamp),
            late: file.map_or(false, |file| file.changed > began),
        }
    }

    /// Somebody changes a file.
    pub fn edit(&mut self) {
        let setup = self.setup;
        let name = match self.random.below(20) {
            0..=8 => Name((setup.targets + self.random.below(setup.sources)) as u32),
            9..=11 => Name(self.random.below(setup.targets) as u32),
            12..=15 => setup.own_do(Name(self.random.below(setup.targets) as u32)),
            16 | 17 => setup.default_do(),
            18 => setup.rule_do(),
            _ => setup.ghost(),
        };
        let kind = self.random.below(100);
        let old = self.contents.get(&name).cloned().unwrap_or_default();
        match kind {
            0..=24 if !self.is_read_early(name) => {
                self.files.remove(&name);
            }
            25..=49 if self.scripts.is_empty() && !old.is_empty() => {
                let content = self.random.pick(&old);
                self.write(name, content);
            }
            50..=93 => self.write_new(name),
            94..=99 => self.touch(name),
            _ => return,
        }
        if self.state(name) != State::Idle {
            self.note_unseen(name);
        } else if !self.scripts.is_empty() {
            self.contents.remove(&name); // no way back: a stamp can't tell what was read in between
        }
        let file = self.files.get(&name).copied();
        self.note(|| format!("      edit {name:?}: {file:?}"));
    }

    /// A file has the same content anew.
    fn touch(&mut self, name: Name) {
        let time = self.time;
        if let Some(file) = self.files.get_mut(&name) {
            file.changed = time;
        }
    }

    /// Whether a script has read a source, and not asked for it yet.
    fn is_read_early(&self, name: Name) -> bool {
        let mut early = self.scripts.values().filter_map(|script| script.early.as_ref());
        early.any(|names| names.contains(&name))
    }

    /// A target is edited whose file scripts may read from now on. If the machine isn't told while
    /// they run, nobody can know what they have read.
    fn note_unseen(&mut self, name: Name) {
        for script in self.scripts.values_mut().filter(|script| script.touched.contains(&name)) {
            script.unseen.insert(name);
        }
    }

    /// The run is over, or killed with all its scripts.
    pub fn close(&mut self, run: RunId) {
        self.scripts.retain(|_, script| script.run != run);
        let gone: Vec<TaskId> = match self.machine.runs().get(&run) {
            Some(state) => state.tasks.iter().copied().collect(),
            None => Vec::new(),
        };
        self.looks.retain(|task| !gone.contains(task));
        self.searches.retain(|task| !gone.contains(task));
        self.tokens += self.users.remove(&run).map_or(0, |user| user.borrowed);
        self.asked.retain(|_, asked| asked.run != run);
        self.event(Event::Close { run });
    }

    /// The program of a request is killed. If its script waited for it, the script fails.
    pub fn leave(&mut self, id: RequestId) {
        let task = self.asked.remove(&id).and_then(|asked| asked.task);
        let waits = |task: &TaskId| self.scripts.get(task).map_or(false, |s| s.blocked == Some(id));
        if let Some(task) = task.filter(waits) {
            self.end_script(task, false);
        }
        self.event(Event::Left { request: id });
    }

    /// Does what the machine says.
    pub fn obey(&mut self, action: Action) {
        match action {
            Action::Look { task, .. } => assert!(self.looks.insert(task), "looks at it already"),
            Action::Search { task, .. } => assert!(self.searches.insert(task), "searches already"),
            Action::Run { task, run, target, do_file, .. } => self.run(task, run, target, do_file),
            Action::Answer { request, right } => self.answered(request, right),
            Action::Say { request, what } => self.hear(request, &what),
            Action::Want { run, slots } => {
                if let Some(user) = self.users.get_mut(&run) {
                    user.wants = slots;
                }
            }
            Action::Return { run, slots } => {
                self.tokens += slots;
                if let Some(user) = self.users.get_mut(&run) {
                    user.borrowed -= slots;
                }
            }
        }
    }

    fn hear(&mut self, request: RequestId, what: &Say) {
        match what {
            Say::Ring(_) => self.counts.rings += 1,
            Say::NoRule(name) | Say::FailedBefore(name) | Say::Gone(name) => {
                // of a `.do` file it is said to those who ask for its target
                let asked = self.asked.get_mut(&request);
                if let Some(asked) = asked.filter(|asked| asked.names.contains(name)) {
                    asked.refused.insert(*name);
                }
            }
            Say::ByHand(name) => {
                self.counts.left += 1;
                let run = self.asked.get(&request).map(|asked| asked.run);
                if let Some(user) = run.and_then(|run| self.users.get_mut(&run)) {
                    user.warned.insert(*name);
                }
            }
            _ => {}
        }
    }

    fn run(&mut self, task: TaskId, run: RunId, target: Name, do_file: Name) {
        self.counts.scripts += 1;
        let text = self.files.get(&do_file).map(|file| file.content);
        let seed = text.unwrap_or(0);
        let script = Script {
            run,
            target,
            began: self.time,
            seed,
            at: 0,
            read: mix(seed, 7),
            before: self.files.get(&target).copied(),
            blocked: None,
            asked: Vec::new(),
            may_fail: false,
            reads: VecDeque::new(),
            early: None,
            touched: BTreeSet::new(),
            unseen: BTreeSet::new(),
            digest: None,
            ended: None,
        };
        self.scripts.insert(task, script);
        if text.is_none() {
            self.end_script(task, false); // the .do file has vanished
        }
    }

    fn answered(&mut self, id: RequestId, right: bool) {
        let asked = match self.asked.remove(&id) {
            Some(asked) => asked,
            None => return,
        };
        match asked.task {
            None => {
                if let Some(user) = self.users.get_mut(&asked.run) {
                    user.answer = Some(right);
                }
            }
            Some(task) => self.answered_script(task, id, &asked, right),
        }
    }

    fn answered_script(&mut self, task: TaskId, id: RequestId, asked: &Asked, right: bool) {
        let script = match self.scripts.get_mut(&task).filter(|s| s.blocked == Some(id)) {
            Some(script) => script,
            None => return,
        };
        script.blocked = None;
        let names = std::mem::take(&mut script.asked);
        if right {
            script.reads.extend(names);
        } else if !script.may_fail {
            self.end_script(task, false);
        } else if asked.kind == Kind::Names && asked.want == want(false) {
            script.read = mix(script.read, FAILED);
        }
    }

    /// Whether a script works, and waits for nothing that the machine has to answer.
    pub fn is_active(&self, task: TaskId) -> bool {
        self.scripts.get(&task).map_or(false, |s| s.ended.is_some() || s.blocked.is_none())
    }

    /// Whether a row is about a file of the tree.
    pub fn file_of(subject: Subject) -> Option<Name> {
        match subject {
            Subject::File(name) | Subject::Edited(name) => Some(name),
            Subject::Left(_) | Subject::Always => None,
        }
    }
}
