//! The steps of scripts.
use crate::random::mix;
use crate::script::{fails, op, want, Op};
use crate::world::World;
use redo_core::{Digest, Event, Name, RequestId, RunId, Stamp, State, Subject, TaskId, Want};

impl World {
    /// The next step of a script.
    pub fn script_step(&mut self, task: TaskId) {
        if self.scripts[&task].ended.is_some() {
            self.tell_end(task);
        } else if let Some(name) = self.next_read(task) {
            let content = self.files.get(&name).map_or(0, |file| file.content);
            self.read(task, content);
        } else if let Some(names) = self.early(task) {
            let is_read = |name: &&Name| (name.0 as usize) >= self.setup.targets;
            let rest = names.iter().skip_while(is_read).copied().collect::<Vec<Name>>();
            self.ask_names(task, want(false), &names, &rest, false, false);
        } else {
            let script = &self.scripts[&task];
            let op = op(&self.setup, script.target, script.seed, script.at, script.read);
            self.with_script(task, |script| script.at += 1);
            self.do_op(task, op);
        }
    }

    fn with_script<T>(
        &mut self,
        task: TaskId,
        change: impl FnOnce(&mut crate::script::Script) -> T,
    ) -> Option<T> {
        self.scripts.get_mut(&task).map(change)
    }

    fn next_read(&mut self, task: TaskId) -> Option<Name> {
        self.with_script(task, |script| script.reads.pop_front()).flatten()
    }

    fn early(&mut self, task: TaskId) -> Option<Vec<Name>> {
        self.with_script(task, |script| script.early.take()).flatten()
    }

    fn read(&mut self, task: TaskId, content: u64) {
        self.with_script(task, |script| script.read = mix(script.read, content));
    }

    fn tell_end(&mut self, task: TaskId) {
        let script = match self.scripts.remove(&task) {
            Some(script) => script,
            None => return,
        };
        let (ok, stamp) = match script.ended {
            Some((ok, stamp)) => (ok, stamp),
            None => return,
        };
        self.told.insert(script.target, self.time);
        let content = stamp.filter(|_| ok).map(|stamp| Digest(u64::from(stamp.0)));
        self.expect_digest(script.target, ok, script.digest.or(content));
        if !script.unseen.is_empty() {
            self.monitor.unseen.insert(script.target);
        }
        self.event(Event::Ended { task, ok, stamp, content });
        self.tell_edit_at_end(script.run, script.target, stamp);
    }

    /// Tells the machine of an output that somebody has edited before its script's end was told.
    fn tell_edit_at_end(&mut self, run: RunId, name: Name, told: Option<Stamp>) {
        let stamp = self.stamp(name);
        if stamp != told {
            self.event(Event::File { run, name, stamp });
        }
    }

    /// Of names that a script reads before it asks for them, the first: sources that are there, and
    /// that nobody builds. None if one of them isn't so.
    fn early_reads(&self, names: &[Name]) -> Option<Vec<Name>> {
        let owners = self.machine.owners();
        let is_source = |name: &Name| {
            let is_idle = self.state(*name) == State::Idle && !owners.contains_key(name);
            is_idle && self.files.contains_key(name)
        };
        let first = names.iter().take_while(|name| name.0 as usize >= self.setup.targets);
        let first: Vec<Name> = first.copied().collect();
        first.iter().all(is_source).then_some(first)
    }

    fn do_op(&mut self, task: TaskId, op: Op) {
        match op {
            Op::IfChange { names, .. } | Op::Redo(names) if names.is_empty() => {}
            Op::IfChange { names, early: true, .. } if self.early_reads(&names).is_some() => {
                let first = self.early_reads(&names).unwrap_or_default();
                self.with_script(task, |script| {
                    script.reads.extend(first);
                    script.early = Some(names);
                });
            }
            Op::IfChange { names, may_fail, background, .. } => {
                self.ask_names(task, want(false), &names, &names, may_fail, background);
            }
            Op::Redo(names) => self.ask_names(task, want(true), &names, &[], true, false),
            Op::IfCreate(name) if self.files.contains_key(&name) => {
                self.ask_names(task, want(false), &[name], &[name], false, false);
            }
            Op::IfCreate(name) => {
                let request = self.ask_other(task);
                self.told.insert(name, self.time);
                let (names, stamps) = (vec![name], vec![None]);
                self.event(Event::IfCreate { task, request, names, stamps });
            }
            Op::Always => {
                let request = self.ask_other(task);
                self.expect_doubt_of_always(task);
                self.event(Event::Always { task, request });
            }
            Op::Stamp => self.stamp_content(task),
            Op::Fail => {
                if fails(self.scripts[&task].read) {
                    self.end_script(task, false);
                }
            }
            Op::End => self.end_script(task, true),
        }
    }

    fn ask_names(
        &mut self,
        task: TaskId,
        want: Want,
        names: &[Name],
        reads: &[Name],
        may_fail: bool,
        background: bool,
    ) {
        let run = self.scripts[&task].run;
        let id = self.new_request(run, Some(task), want, names.to_vec());
        self.with_script(task, |script| {
            script.touched.extend(names);
            if !background {
                script.blocked = Some(id);
                script.asked = reads.to_vec();
                script.may_fail = may_fail;
            }
        });
        self.send(id);
    }

    fn ask_other(&mut self, task: TaskId) -> RequestId {
        let run = self.scripts[&task].run;
        let id = self.new_request(run, Some(task), want(false), Vec::new());
        self.with_script(task, |script| {
            script.blocked = Some(id);
            script.asked = Vec::new();
            script.may_fail = false;
        });
        id
    }

    /// A script stamps its content, which is a bit of what it has read.
    fn stamp_content(&mut self, task: TaskId) {
        let (target, read) = (self.scripts[&task].target, self.scripts[&task].read);
        let digest = Digest(mix(u64::from(target.0), read & 1));
        let request = self.ask_other(task);
        self.with_script(task, |script| script.digest = Some(digest));
        self.event(Event::Stamp { task, request, digest });
    }

    /// A script ends. Its output is the target if it ends well, and nobody wrote that meanwhile.
    pub fn end_script(&mut self, task: TaskId, ok: bool) {
        let script = &self.scripts[&task];
        let (target, seed, read) = (script.target, script.seed, script.read);
        let ok = ok && script.before == self.files.get(&target).copied();
        if ok {
            let (output, digest) = (script.digest.map_or(read, |digest| digest.0), script.digest);
            let has_none = seed % 16 == 3 && digest.is_none();
            if has_none {
                self.files.remove(&target);
            } else {
                self.write(target, mix(u64::from(target.0), output));
            }
        }
        let stamp = self.stamp(target);
        self.with_script(task, |script| {
            script.blocked = None;
            script.ended = Some((ok, stamp));
        });
    }

    /// `//always` as the database knows it.
    pub fn always_told(&self) -> Option<redo_core::Stamp> {
        self.machine.database().at(Subject::Always).file
    }
}
