//! What happens next in a world, at random.
use crate::stranger::STRANGER;
use crate::world::{Asked, Kind, World};
use redo_core::{RequestId, RunId, TaskId};

/// Something that can happen next.
#[derive(Clone, Copy, PartialEq, Eq, Debug)]
enum Way {
    Open,
    LookAtFirst,
    Look,
    Search,
    Script,
    Edit,
    Token,
    Close,
    Kill,
    Leave,
    Lock,
    Unlock,
    Report,
}

impl World {
    /// Takes one action at random. False if there is none.
    pub fn act(&mut self) -> bool {
        let ways = self.ways();
        let total: u64 = ways.iter().map(|(_, weight)| weight).sum();
        if total == 0 {
            return false;
        }
        let mut left = self.random.draw() % total;
        let way = ways.iter().find(|(_, weight)| {
            let is_here = left < *weight;
            left = left.wrapping_sub(*weight);
            is_here
        });
        self.time += 1;
        if let Some((way, _)) = way {
            self.take(*way);
        }
        true
    }

    fn ways(&self) -> Vec<(Way, u64)> {
        let live = !self.frozen;
        let all = [
            (Way::Open, live && self.users.len() < self.setup.runs, 6),
            (Way::LookAtFirst, !self.looking().is_empty(), 30),
            (Way::Look, !self.looks.is_empty(), 20),
            (Way::Search, !self.searches.is_empty(), 20),
            (Way::Script, !self.ready().is_empty(), 40),
            (Way::Edit, live, self.setup.edits),
            (Way::Token, self.tokens > 0 && !self.wanting().is_empty(), 10),
            (Way::Close, !self.closable().is_empty(), 15),
            (Way::Kill, live && self.setup.kills && !self.users.is_empty(), 1),
            (Way::Leave, live && self.setup.background && !self.leavable().is_empty(), 2),
        ];
        let all = all.into_iter().chain(self.ways_of_stranger());
        all.filter(|(_, can, _)| *can).map(|(way, _, weight)| (way, weight)).collect()
    }

    fn ways_of_stranger(&self) -> Vec<(Way, bool, u64)> {
        if !self.setup.stranger {
            return Vec::new();
        }
        let live = !self.frozen;
        let has_locks = !self.locked_by(Some(STRANGER)).is_empty();
        vec![
            (Way::Lock, live && !self.locked_by(None).is_empty(), 3),
            (Way::Unlock, has_locks, 4),
            (Way::Report, live && !self.users.is_empty(), 4),
        ]
    }

    fn ready(&self) -> Vec<TaskId> {
        let ready = self.scripts.iter().filter(|(_, s)| s.ended.is_some() || s.blocked.is_none());
        ready.map(|(task, _)| *task).collect()
    }

    fn looking(&self) -> Vec<RunId> {
        self.users.iter().filter(|(_, u)| u.request.is_none()).map(|(run, _)| *run).collect()
    }

    fn wanting(&self) -> Vec<RunId> {
        self.users.iter().filter(|(_, u)| u.wants > 0).map(|(run, _)| *run).collect()
    }

    fn closable(&self) -> Vec<RunId> {
        let has_script = |run: &RunId| self.scripts.values().any(|script| script.run == *run);
        let over = self.users.iter().filter(|(run, u)| u.answer.is_some() && !has_script(run));
        over.map(|(run, _)| *run).collect()
    }

    fn leavable(&self) -> Vec<RequestId> {
        let of_script = |asked: &Asked| asked.task.is_some() && asked.kind == Kind::Names;
        let open = |id: &RequestId| self.machine.requests().contains_key(id);
        self.asked.iter().filter(|(id, a)| of_script(a) && open(id)).map(|(id, _)| *id).collect()
    }

    fn take(&mut self, way: Way) {
        match way {
            Way::Open => self.open(None),
            Way::LookAtFirst => {
                let run = self.random.pick(&self.looking());
                self.look_at_first(run);
            }
            Way::Look => self.look_at_one(),
            Way::Search => self.search_one(),
            Way::Script => {
                let task = self.random.pick(&self.ready());
                self.script_step(task);
            }
            Way::Edit => self.edit(),
            Way::Token => {
                let run = self.random.pick(&self.wanting());
                self.give_token(run);
            }
            Way::Close => {
                let run = self.random.pick(&self.closable());
                self.close(run);
            }
            Way::Kill => {
                let runs: Vec<RunId> = self.users.keys().copied().collect();
                let run = self.random.pick(&runs);
                self.counts.kills += 1;
                self.close(run);
            }
            Way::Leave => {
                let request = self.random.pick(&self.leavable());
                self.leave(request);
            }
            Way::Lock => self.lock_as_stranger(),
            Way::Unlock => self.unlock_as_stranger(),
            Way::Report => {
                let runs: Vec<RunId> = self.users.keys().copied().collect();
                let run = self.random.pick(&runs);
                self.report_as_stranger(run);
            }
        }
    }

    fn look_at_one(&mut self) {
        let tasks: Vec<TaskId> = self.looks.iter().copied().collect();
        let task = self.random.pick(&tasks);
        self.look(task);
    }

    fn search_one(&mut self) {
        let tasks: Vec<TaskId> = self.searches.iter().copied().collect();
        let task = self.random.pick(&tasks);
        self.search(task);
    }
}
