//! A world for the machine: files that change, scripts that read them, users, a jobserver. It
//! chooses at random what happens next, and keeps the shell's promises: looks in order, an end for
//! each script, no script after its run.
use crate::check::Monitor;
use crate::counts::Counts;
use crate::model::Model;
use crate::random::{mix, Random};
use crate::script::{File, Script};
use crate::setup::Setup;
use redo_core::{Event, Machine, Name, RequestId, RunId, Stamp, State, Subject, TaskId, Want, Who};
use std::collections::{BTreeMap, BTreeSet};

/// Somebody who called.
pub struct User {
    pub opened: u64,
    pub always: Stamp,
    pub keep_going: bool,
    pub looks: Vec<Name>,
    pub request: Option<RequestId>,
    pub names: Vec<Name>,
    pub want: Want,
    pub answer: Option<bool>,
    pub wants: usize,
    pub borrowed: u32,
    /// The edited targets that the run was warned of.
    pub warned: BTreeSet<Name>,
}

/// What a request is for.
#[derive(Clone, Copy, PartialEq, Eq, Debug)]
pub enum Kind {
    /// `redo` or `redo-ifchange`.
    Names,
    /// `redo-ifcreate`, `redo-always` or `redo-stamp`.
    Other,
}

/// A request whose answer is awaited.
pub struct Asked {
    pub run: RunId,
    pub task: Option<TaskId>,
    pub names: Vec<Name>,
    /// The names that were right at some point since it came.
    pub right: BTreeSet<Name>,
    /// Those that had no file, and were no targets, when it came.
    pub absent: BTreeSet<Name>,
    /// Those of which was said that they can't be made.
    pub refused: BTreeSet<Name>,
    pub want: Want,
    pub kind: Kind,
}

pub struct World {
    pub setup: Setup,
    pub random: Random,
    pub machine: Machine<Model>,
    pub files: BTreeMap<Name, File>,
    /// The contents that a name had, and may have again.
    pub contents: BTreeMap<Name, Vec<u64>>,
    pub stamps: BTreeMap<u64, Stamp>,
    pub stamps_made: u32,
    pub scripts: BTreeMap<TaskId, Script>,
    pub looks: BTreeSet<TaskId>,
    pub searches: BTreeSet<TaskId>,
    pub users: BTreeMap<RunId, User>,
    pub asked: BTreeMap<RequestId, Asked>,
    pub tokens: u32,
    pub requests_made: u64,
    pub runs_made: u32,
    pub time: u64,
    /// The names that some event was about.
    pub mentioned: BTreeSet<Name>,
    /// When the database was last told of the file of a name.
    pub told: BTreeMap<Name, u64>,
    pub counts: Counts,
    pub trace: Option<Vec<String>>,
    pub frozen: bool,
    pub monitor: Monitor,
}

impl World {
    pub fn new(seed: u64, is_large: bool, keeps_history: bool) -> World {
        let mut random = Random(seed ^ if is_large { 1 << 62 } else { 0 });
        let setup = Setup::draw(&mut random, is_large);
        let mut world = World {
            random,
            machine: Machine::new(Model::new(keeps_history), true),
            files: BTreeMap::new(),
            contents: BTreeMap::new(),
            stamps: BTreeMap::new(),
            stamps_made: 10,
            scripts: BTreeMap::new(),
            looks: BTreeSet::new(),
            searches: BTreeSet::new(),
            users: BTreeMap::new(),
            asked: BTreeMap::new(),
            tokens: setup.slots - 1,
            requests_made: 0,
            runs_made: 0,
            time: 1,
            mentioned: BTreeSet::new(),
            told: BTreeMap::new(),
            counts: Counts::default(),
            trace: None,
            frozen: false,
            monitor: Monitor::default(),
            setup,
        };
        world.write_first_files();
        world
    }

    fn write_first_files(&mut self) {
        let setup = self.setup;
        let mut names: Vec<Name> =
            (0..setup.targets as u32).map(|n| setup.own_do(Name(n))).collect();
        names.retain(|_| self.random.chance(80));
        names.extend((setup.targets..setup.files()).map(|source| Name(source as u32)));
        names.extend(self.random.chance(50).then_some(setup.default_do()));
        names.extend(setup.built_rules.then_some(setup.rule_do()));
        names.into_iter().for_each(|name| self.write_new(name));
    }

    pub fn note(&mut self, text: impl FnOnce() -> String) {
        if let Some(trace) = &mut self.trace {
            trace.push(text());
        }
    }

    /// The stamp of a content.
    pub fn stamp_of_content(&mut self, content: u64) -> Stamp {
        let next = Stamp(self.stamps_made + 1);
        let stamp = *self.stamps.entry(content).or_insert(next);
        self.stamps_made = self.stamps_made.max(stamp.0);
        stamp
    }

    pub fn new_stamp(&mut self) -> Stamp {
        self.stamps_made += 1;
        Stamp(self.stamps_made)
    }

    pub fn write(&mut self, name: Name, content: u64) {
        let stamp = self.stamp_of_content(content);
        self.files.insert(name, File { content, stamp, changed: self.time });
        self.contents.entry(name).or_default().push(content);
    }

    pub fn write_new(&mut self, name: Name) {
        let content = mix(self.random.draw(), 3);
        self.write(name, content);
    }

    pub fn stamp(&self, name: Name) -> Option<Stamp> {
        self.files.get(&name).map(|file| file.stamp)
    }

    pub fn state(&self, name: Name) -> State {
        self.machine.database().cell(name).state
    }

    pub fn give_token(&mut self, run: RunId) {
        self.tokens -= 1;
        if let Some(user) = self.users.get_mut(&run) {
            user.borrowed += 1;
        }
        self.event(Event::Slot { run });
    }

    pub fn look(&mut self, task: TaskId) {
        self.looks.remove(&task);
        let target = self.machine.tasks()[&task].target;
        self.told.insert(target, self.time);
        self.event(Event::Looked { task, stamp: self.stamp(target) });
    }

    pub fn search(&mut self, task: TaskId) {
        self.searches.remove(&task);
        let target = self.machine.tasks()[&task].target;
        let candidates = self.setup.candidates(target);
        let there = candidates.iter().position(|do_file| self.files.contains_key(do_file));
        let missing: Vec<Name> = candidates[..there.unwrap_or(candidates.len())].to_vec();
        let rule = there.map(|at| (candidates[at], self.files[&candidates[at]].stamp));
        let looked = missing.iter().copied().chain(rule.map(|(do_file, _)| do_file));
        let time = self.time;
        self.told.extend(looked.map(|name| (name, time)));
        self.event(Event::Found { task, rule, missing });
    }

    /// Gives an event to the machine, and does all its chores.
    pub fn event(&mut self, event: Event) {
        self.counts.events += 1;
        self.note(|| format!("-> {event:?}"));
        self.mention(&event);
        self.note_seen(&event);
        let most = self.most_chores(&event);
        self.machine.event(event);
        self.obey_all();
        let mut chores = 0;
        while self.chore() {
            chores += 1;
            assert!(chores < 100_000, "a chore after each chore");
        }
        self.counts.most_chores = self.counts.most_chores.max(chores);
        self.quiet(chores, most);
    }

    fn chore(&mut self) -> bool {
        let next = match self.machine.next_chore().cloned() {
            Some(next) => next,
            None => return false,
        };
        self.counts.chores += 1;
        self.note(|| format!("     . {next:?}"));
        self.before_chore(&next);
        self.machine.step();
        self.after_chore(&next);
        self.obey_all();
        true
    }

    fn obey_all(&mut self) {
        for action in self.machine.take_actions() {
            self.note(|| format!("        <- {action:?}"));
            self.check_action(&action);
            self.obey(action);
        }
    }

    /// The machine is told of files, while scripts run that may have read them.
    fn note_seen(&mut self, event: &Event) {
        let seen: Vec<Name> = match event {
            Event::File { name, .. } | Event::Touched { name, .. } => vec![*name],
            Event::Ask { names, looks, .. } if !looks.is_empty() => names.clone(),
            Event::Looked { task, .. } => vec![self.machine.tasks()[task].target],
            Event::Found { rule, missing, .. } => {
                missing.iter().copied().chain(rule.map(|(do_file, _)| do_file)).collect()
            }
            _ => Vec::new(),
        };
        for script in self.scripts.values_mut() {
            script.unseen.retain(|name| !seen.contains(name));
        }
    }

    fn mention(&mut self, event: &Event) {
        match event {
            Event::Ask { names, .. } => self.mentioned.extend(names),
            Event::Found { rule, missing, .. } => {
                self.mentioned.extend(missing);
                self.mentioned.extend(rule.map(|(do_file, _)| do_file));
            }
            Event::IfCreate { names, .. } => self.mentioned.extend(names),
            _ => {}
        }
    }

    /// A request of a program, which `send` tells the machine.
    pub fn new_request(
        &mut self,
        run: RunId,
        task: Option<TaskId>,
        want: Want,
        names: Vec<Name>,
    ) -> RequestId {
        self.requests_made += 1;
        let id = RequestId::Program(self.requests_made);
        let kind = if names.is_empty() { Kind::Other } else { Kind::Names };
        let is_absent =
            |name: &&Name| self.state(**name) == State::Idle && !self.files.contains_key(name);
        let absent = names.iter().filter(is_absent).copied().collect();
        let (right, refused) = (BTreeSet::new(), BTreeSet::new());
        let asked = Asked { run, task, names, right, absent, refused, want, kind };
        self.asked.insert(id, asked);
        id
    }

    /// Whether the file of a target is none that its builds left, as far as the database knows.
    pub fn is_edited(&self, name: Name) -> bool {
        self.monitor.is_edited(name, self.machine.database().at(Subject::File(name)).file)
    }

    /// Who asks in a request.
    pub fn who(asked: &Asked) -> Who {
        asked.task.map_or(Who::User, Who::Script)
    }
}
