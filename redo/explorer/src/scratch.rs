//! A build from scratch: what each target should be, by its script and what that reads, built anew.
use crate::random::mix;
use crate::script::{fails, op, Op, FAILED};
use crate::world::World;
use redo_core::{Database, Digest, Name, State};
use std::collections::BTreeMap;

/// What a build from scratch makes of a name.
#[derive(Clone, Copy, PartialEq, Eq, Debug)]
pub enum Value {
    Content(u64),
    Fails,
    /// It is on a ring, or needs what is on one.
    Ring,
}

/// A build from scratch, as far as it has come.
#[derive(Default)]
pub struct Scratch {
    known: BTreeMap<Name, Value>,
    stack: Vec<Name>,
}

impl World {
    /// What a target should be. A file that no build made is a source, and an edited one as well.
    pub fn scratch(&self, name: Name, scratch: &mut Scratch) -> Value {
        if scratch.stack.contains(&name) {
            return Value::Ring;
        }
        if let Some(value) = scratch.known.get(&name) {
            return *value;
        }
        let value = self.scratch_anew(name, scratch);
        if value != Value::Ring || scratch.stack.is_empty() {
            scratch.known.insert(name, value);
        }
        value
    }

    fn scratch_anew(&self, name: Name, scratch: &mut Scratch) -> Value {
        let content = self.files.get(&name).map(|file| file.content);
        let is_source = self.state(name) == State::Idle || self.is_edited(name);
        if let (true, Some(content)) = (is_source, content) {
            return Value::Content(content);
        }
        let candidates = self.setup.candidates(name).into_iter();
        let do_file = match candidates.into_iter().find(|rule| self.files.contains_key(rule)) {
            Some(do_file) => do_file,
            None => {
                let is_kept = self.state(name) != State::Idle && content.is_some();
                return content.filter(|_| is_kept).map_or(Value::Fails, Value::Content);
            }
        };
        scratch.stack.push(name);
        let value = match self.scratch(do_file, scratch) {
            Value::Content(seed) => self.scratch_by(name, seed, scratch),
            other => other,
        };
        scratch.stack.pop();
        value
    }

    fn scratch_by(&self, target: Name, seed: u64, scratch: &mut Scratch) -> Value {
        let mut read = mix(seed, 7);
        let mut digest: Option<Digest> = None;
        for at in 0.. {
            match op(&self.setup, target, seed, at, read) {
                Op::End => break,
                Op::Fail if fails(read) => return Value::Fails,
                Op::Fail | Op::Always => {}
                Op::IfCreate(name) => {
                    let content = self.files.get(&name).map(|file| file.content);
                    read = content.map_or(read, |content| mix(read, content));
                }
                Op::Stamp => digest = Some(Digest(mix(u64::from(target.0), read & 1))),
                Op::IfChange { names, may_fail, background: false, .. } => {
                    match self.scratch_all(target, &names, scratch) {
                        Ok(contents) => read = contents.into_iter().fold(read, mix),
                        Err(Value::Fails) if may_fail => read = mix(read, FAILED),
                        Err(value) => return value,
                    }
                }
                // waits whose answer counts for nothing can still close a ring
                Op::IfChange { names, .. } | Op::Redo(names) => {
                    if names.iter().any(|name| self.scratch(*name, scratch) == Value::Ring) {
                        return Value::Ring;
                    }
                }
            }
        }
        let output = digest.map_or(read, |digest| digest.0);
        Value::Content(mix(u64::from(target.0), output))
    }

    /// The contents of all names, or how they end together.
    fn scratch_all(
        &self,
        target: Name,
        names: &[Name],
        scratch: &mut Scratch,
    ) -> Result<Vec<u64>, Value> {
        if names.contains(&target) {
            return Err(Value::Fails);
        }
        let values: Vec<Value> = names.iter().map(|name| self.scratch(*name, scratch)).collect();
        if values.contains(&Value::Ring) {
            return Err(Value::Ring);
        }
        let contents = names.iter().zip(values).map(|(name, value)| match value {
            Value::Content(content) if self.files.contains_key(name) => Ok(content),
            Value::Content(_) => Ok(0), // its build has no output
            other => Err(other),
        });
        contents.collect()
    }

    /// (g): after a last run, in which no file changed, each target is what a build from scratch
    /// makes.
    pub fn compare(&mut self) {
        let mut scratch = Scratch::default();
        for target in (0..self.setup.targets as u32).map(Name) {
            let value = self.scratch(target, &mut scratch);
            self.counts.compared += 1;
            self.counts.tainted += u64::from(value == Value::Ring);
            if !self.fits(target, value) {
                let state = self.state(target);
                self.fault(format!("(g) {target:?} is {state:?}; from scratch {value:?}"));
            }
        }
    }

    fn fits(&self, target: Name, value: Value) -> bool {
        let file = self.files.get(&target);
        let has_rule = self.setup.candidates(target).iter().any(|r| self.files.contains_key(r));
        match (value, self.state(target)) {
            (Value::Ring, _) => true,
            (Value::Content(content), State::Built) => file.map_or(true, |f| f.content == content),
            (Value::Content(_), State::Idle) => file.is_some(),
            (Value::Content(_), State::Failed) => self.is_edited(target),
            (Value::Fails, State::Failed | State::Idle) => true,
            // its file is gone, and its rule as well
            (Value::Fails, State::Built) => {
                self.machine.database().is_out_of_date(target) && !has_rule
            }
            (_, State::Building(_)) => false,
        }
    }

    /// The values of all targets, for a trace.
    pub fn print_scratch(&self) {
        let mut scratch = Scratch::default();
        for name in (0..self.setup.names() as u32).map(Name) {
            let value = self.scratch(name, &mut scratch);
            println!("{name:?}: {:?}, from scratch {value:?}", self.files.get(&name));
        }
    }
}
