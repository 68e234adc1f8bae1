//! What can be seen of the machine between two chores.
use crate::chore::Chore;
use crate::database::Database;
use crate::machine::Machine;
use crate::name::{Name, RequestId, RunId, TaskId};
use crate::request::Request;
use crate::run::Run;
use crate::task::Task;
use std::collections::{BTreeMap, VecDeque};

impl<D: Database> Machine<D> {
    /// The database that the machine uses.
    pub fn database(&self) -> &D {
        &self.database
    }

    /// The runs that are open.
    pub fn runs(&self) -> &BTreeMap<RunId, Run> {
        &self.runs
    }

    /// The tasks that haven't ended.
    pub fn tasks(&self) -> &BTreeMap<TaskId, Task> {
        &self.tasks
    }

    /// The requests that are open.
    pub fn requests(&self) -> &BTreeMap<RequestId, Request> {
        &self.requests
    }

    /// The task that has the lock of each name.
    pub fn owners(&self) -> &BTreeMap<Name, TaskId> {
        &self.owners
    }

    /// The tasks that wait for the lock of each name, the next one first.
    pub fn lines(&self) -> &BTreeMap<Name, VecDeque<TaskId>> {
        &self.lines
    }

    /// The chore that comes next.
    pub fn next_chore(&self) -> Option<&Chore> {
        self.agenda.front()
    }

    /// The database, for who restores it or keeps a log of it. Between two events only.
    pub fn database_mut(&mut self) -> &mut D {
        &mut self.database
    }
}
