//! What users ask: lists, causes, and what a run would do.

use redo_core::{Database, Event, Name, RunId, State as NameState, Subject, FOLDER};
use redo_files::names::{is_internal, name_of, relative_path, ALWAYS, EDITED};
use redo_files::paths::{self, shown};
use redo_files::{links, rules};
use redo_wire::options::{taken_out, targets_of};
use redo_wire::{Call, Program};

use crate::client::ClientId;
use crate::json;
use crate::server::programs::{FAILED, USAGE};
use crate::server::runs::{Refusal, Wanted, HAS_FAULT};
use crate::server::Server;
use crate::sessions::Session;
use crate::wire::partition;

/// What an always row says.
const DOUBTFUL: &str = "changed while it was built";

/// What is printed, and the status.
struct Printed {
    text: Vec<u8>,
    status: u8,
}

/// Why a target is to be built: a word, and the paths of what depends on what.
pub(super) struct Cause {
    pub word: String,
    pub chain: Vec<Vec<u8>>,
}

impl Server {
    /// Answers a question of a user.
    pub(super) fn question(&mut self, id: ClientId, call: &Call) {
        self.follow_top();
        let printed = match call.program {
            Program::Ood => self.list(call, b"ood"),
            Program::Sources => self.list(call, b"sources"),
            Program::Targets => self.list_targets(call),
            Program::Why => self.whys(call),
            Program::WhichDo => self.which(call),
            Program::Log => self.needed(call),
            _ => Err(usage("the server has no answer to that")),
        };
        match printed {
            Ok(printed) => {
                self.send_output(id, &printed.text);
                self.end_program(id, printed.status);
            }
            Err(refusal) if refusal.status == USAGE => {
                let hint = format!("; see {} --help", call.program.name());
                let text = [refusal.text.as_slice(), hint.as_bytes()].concat();
                self.end_with_bytes(id, call.program, &text, USAGE);
            }
            Err(refusal) => {
                self.end_with_bytes(id, call.program, &refusal.text, refusal.status);
            }
        }
    }

    /// Looks at all files that are known. If some have changed, or targets are to be built in each
    /// run, the machine is told as if a run asked.
    fn look_for_question(&mut self) {
        self.settle_clients();
        let changes = self.machine.database_mut().known.changes();
        let has_always = self.machine.database().file(Subject::Always).is_some();
        let is_told = self.machine.database().known.untold_edits().is_empty();
        if !changes.is_empty() || has_always || !is_told {
            let run = RunId(Session::QUESTIONS.number());
            self.open(run, false, &changes);
            self.feed(Event::Close { run });
        }
    }

    fn list_targets(&mut self, call: &Call) -> Result<Printed, Refusal> {
        let (taken, words) = taken_out(&call.words, &[b"--edited"]);
        if taken.is_empty() {
            return self.list(call, b"targets");
        }
        let end = end_of_lines(&words)?;
        self.look_for_question();
        let edited = self.machine.database().known.edited(&[]);
        Ok(self.printed_names(call, edited, end))
    }

    /// One of the lists of the database.
    fn list(&mut self, call: &Call, question: &[u8]) -> Result<Printed, Refusal> {
        let end = end_of_lines(&call.words)?;
        self.look_for_question();
        let answer = self.ask_database(&[question])?;
        let names = partition(&answer).1.split(|byte| *byte == b' ');
        let names = names.filter(|name| !name.is_empty()).map(<[u8]>::to_vec);
        Ok(self.printed_names(call, names.collect(), end))
    }

    fn printed_names(&self, call: &Call, names: Vec<Vec<u8>>, end: u8) -> Printed {
        let top = self.taken.home.top();
        let folder = links::resolved(&call.folder).unwrap_or_else(|_| call.folder.clone());
        let is_top = folder == top;
        let mut text = Vec::new();
        for name in names.iter().filter(|name| !is_internal(name)) {
            if is_top && is_path(name) {
                text.extend_from_slice(name);
            } else {
                text.extend(relative_path(name, top, &folder));
            }
            text.push(end);
        }
        Printed { text, status: 0 }
    }

    /// Asks the database. Fails if that has ended, or if it answers a fault.
    pub(super) fn ask_database(&mut self, question: &[&[u8]]) -> Result<Vec<u8>, Refusal> {
        let answer = self.machine.database().ask(question);
        self.note_failure();
        let text = match answer {
            Some(answer) if !answer.starts_with(b"fault ") => return Ok(answer),
            Some(fault) => [HAS_FAULT, &question.concat(), b" => ", &fault].concat(),
            None => b"the database has ended".to_vec(),
        };
        let status = FAILED;
        Err(Refusal { text, status })
    }

    fn whys(&mut self, call: &Call) -> Result<Printed, Refusal> {
        let (taken, words) = taken_out(&call.words, &[b"--json", b"--users"]);
        let has = |option: &[u8]| taken.iter().any(|word| word == option);
        let (is_json, is_users) = (has(b"--json"), has(b"--users"));
        let targets = targets_of(&words)?;
        if targets.is_empty() {
            return Err(usage("it takes a target"));
        }
        let names = self.names_asked(&targets, call)?;
        if is_users {
            let text = self.users(&names, call, is_json)?;
            return Ok(Printed { text, status: 0 });
        }
        self.look_for_question();
        let mut text = Vec::new();
        for name in names {
            let cause = self.cause_of(name, &call.folder)?;
            text.extend(if is_json { cause.json() } else { cause.line() });
            text.push(b'\n');
        }
        Ok(Printed { text, status: 0 })
    }

    /// The names of the targets that these need by their last build, for redo-log.
    fn needed(&mut self, call: &Call) -> Result<Printed, Refusal> {
        self.settle_clients();
        let mut text = Vec::new();
        for name in self.names_asked(&call.words, call)? {
            let needs = self.targets_built_from(name).into_iter();
            text.extend(needs.flat_map(|need| [self.name_text(need), b"\n".to_vec()].concat()));
        }
        self.note_failure();
        Ok(Printed { text, status: 0 })
    }

    fn targets_built_from(&self, name: Name) -> Vec<Name> {
        let store = self.machine.database();
        let needs = store.needs(name).into_iter();
        let files = needs.filter_map(|subject| match subject {
            Subject::File(need) | Subject::Edited(need) => Some(need),
            Subject::Left(_) | Subject::Always => None,
        });
        files
            .filter(|need| store.state(*need) != NameState::Idle)
            .collect()
    }

    fn names_asked(&mut self, words: &[Vec<u8>], call: &Call) -> Result<Vec<Name>, Refusal> {
        let mut names = Vec::new();
        for word in words {
            let path = if word.is_empty() {
                word.clone()
            } else {
                paths::join(&call.folder, word)
            };
            let name = name_of(&path, self.taken.home.top())?;
            names.push(self.machine.database_mut().known.intern(&name));
        }
        Ok(names)
    }

    /// Why a name is to be built, with paths from a folder.
    pub(super) fn cause_of(&mut self, name: Name, folder: &[u8]) -> Result<Cause, Refusal> {
        let text = self.machine.database().known.names.name(name).to_vec();
        let answer = self.ask_database(&[b"why ", &text])?;
        let words: Vec<&[u8]> = answer.split(|byte| *byte == b' ').collect();
        let path = |name: &[u8]| self.path_from(name, folder);
        let (reason, place, chain) = match words[..] {
            [reason, place, ref chain @ ..] if !chain.is_empty() => (reason, place, chain),
            _ => {
                let word = self.word_of_clean(name).to_owned();
                let chain = vec![path(&text)];
                return Ok(Cause { word, chain });
            }
        };
        let mut word = String::from_utf8_lossy(reason).into_owned();
        let mut paths: Vec<Vec<u8>> = chain.iter().map(|one| path(one)).collect();
        match reason {
            b"changed" if place == ALWAYS => word = "always".to_owned(),
            b"always" => word = DOUBTFUL.to_owned(),
            b"changed" | b"appeared" => paths.push(path(place)),
            b"edited" if self.has_no_file(chain) => word = "gone".to_owned(),
            _ => {}
        }
        Ok(Cause { word, chain: paths })
    }

    pub(super) fn path_from(&self, name: &[u8], folder: &[u8]) -> Vec<u8> {
        let name = name.strip_prefix(EDITED).unwrap_or(name);
        let folder = links::resolved(folder).unwrap_or_else(|_| folder.to_vec());
        relative_path(name, self.taken.home.top(), &folder)
    }

    /// Says whether the last name of a chain has no file.
    fn has_no_file(&self, chain: &[&[u8]]) -> bool {
        let names = &self.machine.database().known.names;
        let facts = chain.last().and_then(|last| names.facts_of(last));
        facts.map_or(true, |facts| facts.stamp.is_none())
    }

    fn word_of_clean(&self, name: Name) -> &'static str {
        let store = self.machine.database();
        match store.state(name) {
            NameState::Idle if store.file(Subject::File(name)).is_none() => "no target yet",
            NameState::Idle => "a source",
            _ => "up to date",
        }
    }

    /// The `.do` files of a target, up to the first that is there.
    fn which(&mut self, call: &Call) -> Result<Printed, Refusal> {
        let targets = targets_of(&call.words)?;
        let target = match targets.as_slice() {
            [target] if !target.is_empty() => target,
            _ => return Err(usage("it takes one target")),
        };
        let here = links::resolved(&call.folder).unwrap_or_else(|_| call.folder.clone());
        let whole = paths::normalized(&paths::join(&call.folder, target));
        let (folder, name) = paths::split(&whole);
        let folder = links::resolved(folder).unwrap_or_else(|_| folder.to_vec());
        let home = &self.taken.home;
        let found = rules::search(&paths::join(&folder, name), home.top(), home.trust())?;
        let winner = found.rule.map(|rule| rule.do_file);
        let status = if winner.is_some() { 0 } else { FAILED };
        let mut text = Vec::new();
        for path in found.missing.iter().chain(&winner) {
            text.extend(paths::relative(path, &here));
            text.push(b'\n');
        }
        Ok(Printed { text, status })
    }

    /// Says which targets a run would build, as far as is known before one is built: a name of no
    /// build yet, and what is out of date below those that are wanted.
    pub(super) fn tell_only(&mut self, id: ClientId, call: &Call, wanted: &Wanted) {
        self.look_for_question();
        let is_forced = call.program == Program::Redo;
        let mut seen = std::collections::BTreeSet::new();
        let mut line: Vec<Name> = wanted.names.iter().rev().copied().collect();
        let mut text = Vec::new();
        while let Some(name) = line.pop() {
            if !seen.insert(name) {
                continue;
            }
            let is_asked = is_forced && wanted.names.contains(&name);
            if self.would_build(name, is_asked) {
                let path = self.path_from(&self.name_text(name), &call.folder);
                text.extend([b"redo  ", shown(&path).as_slice(), b"\n"].concat());
            }
            line.extend(self.targets_needed(name));
        }
        self.note_failure();
        self.send_output(id, &text);
        self.end_program(id, 0);
    }

    fn would_build(&self, name: Name, is_asked: bool) -> bool {
        let store = self.machine.database();
        let file = store
            .file(Subject::File(name))
            .filter(|file| *file != FOLDER);
        match store.state(name) {
            NameState::Idle => file.is_none(),
            _ if store.known.is_edited_now(name) => false,
            _ => is_asked || store.is_out_of_date(name),
        }
    }

    fn targets_needed(&self, name: Name) -> Vec<Name> {
        let store = self.machine.database();
        if store.state(name) == NameState::Idle {
            return Vec::new();
        }
        let needs = store.needs(name).into_iter();
        let targets = needs.filter_map(|subject| match subject {
            Subject::File(need) if store.is_out_of_date(need) => Some(need),
            _ => None,
        });
        targets.collect()
    }

    pub(super) fn name_text(&self, name: Name) -> Vec<u8> {
        self.machine.database().known.names.name(name).to_vec()
    }
}

impl Cause {
    fn line(&self) -> Vec<u8> {
        let is_clean = ["up to date", "no target yet", "a source"].contains(&self.word.as_str());
        let last: &[u8] = if is_clean { b" is " } else { b" " };
        let chain: Vec<Vec<u8>> = self.chain.iter().map(|path| shown(path)).collect();
        [&chain.join(&b" <- "[..]), last, self.word.as_bytes()].concat()
    }

    fn json(&self) -> Vec<u8> {
        let chain: Vec<String> = self.chain.iter().map(|path| json::string(path)).collect();
        let target = chain.first().map_or("", String::as_str);
        let word = json::string(self.word.as_bytes());
        let list = chain.join(", ");
        format!("{{\"target\": {target}, \"reason\": {word}, \"chain\": [{list}]}}").into_bytes()
    }
}

/// Reads the byte that ends each path: NUL after `-0`, else LF.
fn end_of_lines(words: &[Vec<u8>]) -> Result<u8, Refusal> {
    if words == [b"-0"] {
        return Ok(0);
    }
    if targets_of(words)?.is_empty() {
        return Ok(b'\n');
    }
    Err(usage("it takes no arguments"))
}

/// Says whether a name is the path of its file from the top.
fn is_path(name: &[u8]) -> bool {
    !name.contains(&b'%') && !name.starts_with(b"../") && !name.starts_with(b"/")
}

fn usage(text: &str) -> Refusal {
    Refusal {
        text: text.as_bytes().to_vec(),
        status: USAGE,
    }
}
