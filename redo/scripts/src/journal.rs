//! The place of a run in `.redo/run`, with a file of what the run builds.
//!
//! Each build is a line `+ GRANT NAME` when it begins, `@ GRANT NAME GROUP` when its script runs,
//! and `- GRANT NAME` when its output files are gone. The run has a lock of that file. So if the
//! lock is free, the run was killed, and the next run removes what its builds left.

use std::collections::HashMap;
use std::fs::File;
use std::io::{self, ErrorKind, Read, Write};
use std::os::unix::fs::MetadataExt;
use std::thread;
use std::time::{Duration, Instant};

use libc::{O_APPEND, O_CREAT, O_EXCL, O_WRONLY};
use redo_files::error::FileError;
use redo_files::private::{Home, Opening};
use redo_files::system::Folder;
use redo_files::top::{places::RUN, HOME};
use redo_files::{names, paths};

use crate::folder::{self, remove_known, Manifest};
use crate::output::Outputs;
use crate::processes::Group;
use crate::removal::names_in;
use crate::strays;
use crate::system;
use crate::text::{joined, shown};

const BUILDS: &[u8] = b".builds";
const MOST_RUNS: u32 = 1 << 16;
const RIGHTS: u32 = 0o700;
const MOST_WAIT: Duration = Duration::from_millis(500);
const PAUSE: Duration = Duration::from_millis(2);

/// What a run builds. It leaves its place when it is dropped.
#[derive(Debug)]
pub struct Journal {
    folder: Folder,
    file: File,
    name: Vec<u8>,
    path: Vec<u8>,
}

/// A build that began and didn't end.
#[derive(Clone, Debug, PartialEq, Eq)]
struct Unfinished {
    grant: u64,
    name: Vec<u8>,
    group: Option<i32>,
}

impl Journal {
    /// Takes a place.
    pub fn take(home: &Home) -> Result<Journal, FileError> {
        let folder = home.open_folder(RUN, Some(RIGHTS))?;
        let above = paths::join(&paths::join(home.top(), HOME), RUN);
        let (name, file) =
            taken(&folder, &above).map_err(|cause| FileError::system(&above, cause))?;
        home.give_away(&file)?;
        let path = paths::join(&above, &name);
        Ok(Journal {
            folder,
            file,
            name,
            path,
        })
    }

    /// Returns the path of the place, by which scripts of the run are known.
    pub fn path(&self) -> &[u8] {
        &self.path
    }

    /// Notes a build, whose output files aren't there yet.
    pub fn begun(&mut self, name: &[u8], grant: u64) {
        self.write(&joined(&[format!("+ {grant} ").as_bytes(), name, b"\n"]));
    }

    /// Notes the group of a build's script.
    pub fn started(&mut self, name: &[u8], grant: u64, group: Group) {
        let (beginning, end) = (format!("@ {grant} "), format!(" {group}\n"));
        self.write(&joined(&[beginning.as_bytes(), name, end.as_bytes()]));
    }

    /// Notes that the output files of a build are gone.
    pub fn ended(&mut self, name: &[u8], grant: u64) {
        self.write(&joined(&[format!("- {grant} ").as_bytes(), name, b"\n"]));
    }

    /// Writes a line; on a full disk it is left out, and then so is what the build left.
    fn write(&mut self, line: &[u8]) {
        let _ = self.file.write_all(line);
    }
}

impl Drop for Journal {
    fn drop(&mut self) {
        for name in [self.name.clone(), joined(&[&self.name, BUILDS])] {
            let _ = self.folder.remove(&name); // what stays is removed by the next run
        }
    }
}

/// Removes what runs that were killed have left, and kills what is left of their scripts. Returns
/// what there is to say.
pub fn clear(home: &Home) -> Result<Vec<Vec<u8>>, FileError> {
    let folder = home.open_folder(RUN, Some(RIGHTS))?;
    let above = paths::join(&paths::join(home.top(), HOME), RUN);
    let names = names_in(&above).map_err(|cause| FileError::system(&above, cause))?;
    let runs = names.iter().filter_map(|name| name.strip_suffix(BUILDS));
    let said = runs.map(|run| clear_run(home, &folder, &above, run));
    let said: Vec<Vec<Vec<u8>>> = said.collect::<Result<_, FileError>>()?;
    Ok(said.into_iter().flatten().collect())
}

/// Says whether a run that goes on builds a name now.
pub fn is_built_now(home: &Home, name: &[u8]) -> bool {
    let above = paths::join(&paths::join(home.top(), HOME), RUN);
    let names = names_in(&above).unwrap_or_default();
    let mut journals = names.iter().filter(|name| name.ends_with(BUILDS));
    journals.any(|journal| {
        let file = open(home, journal).unwrap_or(None);
        let file = file.filter(|file| matches!(system::lock(file), Ok(false)));
        let builds = file.and_then(|file| unfinished_in(&file));
        builds
            .unwrap_or_default()
            .iter()
            .any(|build| build.name == name)
    })
}

/// Returns the name of a place, and its open file, whose lock is taken. In another PID namespace
/// there may be a run with the same number.
fn taken(folder: &Folder, above: &[u8]) -> io::Result<(Vec<u8>, File)> {
    let flags = O_WRONLY | O_CREAT | O_EXCL | O_APPEND;
    let number = std::process::id();
    for more in 0..MOST_RUNS {
        let name = match more {
            0 => number.to_string(),
            _ => format!("{number}.{more}"),
        };
        let place = joined(&[name.as_bytes(), BUILDS]);
        match folder.open_file(&place, flags, 0o600) {
            Ok(file) if is_taken(&file, folder, &place)? => return Ok((name.into_bytes(), file)),
            Err(cause) if cause.kind() != ErrorKind::AlreadyExists => return Err(cause),
            _ => {}
        }
    }
    let text = format!(
        "no place for a run is free in {}",
        String::from_utf8_lossy(above)
    );
    Err(io::Error::new(ErrorKind::Other, text))
}

/// Takes the lock of a file, and says whether it is still in its place.
fn is_taken(file: &File, folder: &Folder, place: &[u8]) -> io::Result<bool> {
    let (here, there) = (file.metadata()?, folder.lstat(place));
    let is_same = there.map_or(false, |there| {
        (there.inode, there.device) == (here.ino(), here.dev())
    });
    Ok(is_same && system::lock(file)?)
}

/// Removes what a run has left, if it is dead.
fn clear_run(
    home: &Home,
    folder: &Folder,
    above: &[u8],
    run: &[u8],
) -> Result<Vec<Vec<u8>>, FileError> {
    let journal = joined(&[run, BUILDS]);
    let file = open(home, &journal)?.filter(|file| is_dead(file, run));
    let builds = match file.and_then(|file| unfinished_in(&file)) {
        Some(builds) => builds,
        None => return Ok(Vec::new()),
    };
    if !builds.is_empty() {
        let groups: Vec<i32> = builds.iter().filter_map(|build| build.group).collect();
        strays::kill(&paths::join(above, run), &groups);
    }
    let said = builds
        .iter()
        .filter_map(|build| forget(home, build))
        .collect();
    for old in [run, &journal] {
        let _ = folder.remove(old); // the next run tries again
    }
    Ok(said)
}

/// Opens a journal, if that can be. Fails if what is there isn't trusted.
fn open(home: &Home, journal: &[u8]) -> Result<Option<File>, FileError> {
    match home.open_file(&paths::join(RUN, journal), Opening::READ) {
        Err(FileError::System { .. }) => Ok(None),
        other => other.map(Some),
    }
}

/// Says whether the run of a journal is dead: nobody has the lock, which is taken then.
///
/// A script that was about to begin when its run was killed has the lock for a moment.
fn is_dead(file: &File, run: &[u8]) -> bool {
    let began = Instant::now();
    loop {
        let is_free = system::lock(file).unwrap_or(false);
        if is_free || began.elapsed() > MOST_WAIT || is_there(run) {
            return is_free;
        }
        thread::sleep(PAUSE);
    }
}

/// Says whether the process of a run is there, as far as its name tells that.
fn is_there(run: &[u8]) -> bool {
    let number = run.split(|byte| *byte == b'.').next().and_then(number);
    let number = number.and_then(|number| i32::try_from(number).ok());
    number.map_or(true, strays::is_there)
}

/// Returns the builds of a journal that began and didn't end.
fn unfinished_in(mut file: &File) -> Option<Vec<Unfinished>> {
    let mut text = Vec::new();
    file.read_to_end(&mut text).ok()?;
    Some(unfinished(&text))
}

fn unfinished(text: &[u8]) -> Vec<Unfinished> {
    let mut found: HashMap<(u64, Vec<u8>), Option<i32>> = HashMap::new();
    let mut lines: Vec<&[u8]> = text.split(|byte| *byte == b'\n').collect();
    lines.pop(); // one without an LF was not written to its end
    for line in lines {
        let words: Vec<&[u8]> = line.split(|byte| *byte == b' ').collect();
        let build = |grant, name: &[u8]| Some((number(grant)?, name.to_vec()));
        match words[..] {
            [b"+", grant, name] => found.extend(build(grant, name).map(|build| (build, None))),
            [b"@", grant, name, group] => found.extend(build(grant, name).map(|build| {
                (
                    build,
                    number(group).and_then(|group| i32::try_from(group).ok()),
                )
            })),
            [b"-", grant, name] => {
                build(grant, name).and_then(|build| found.remove(&build));
            }
            _ => {}
        }
    }
    let builds = found.into_iter();
    let mut builds: Vec<_> = builds
        .map(|((grant, name), group)| Unfinished { grant, name, group })
        .collect();
    builds.sort_by(|one, other| (&one.name, one.grant).cmp(&(&other.name, other.grant)));
    builds
}

fn number(word: &[u8]) -> Option<u64> {
    std::str::from_utf8(word).ok()?.parse().ok()
}

/// Removes the output files of a build; returns what there is to say. What can't be removed stays,
/// and no other build uses it.
fn forget(home: &Home, build: &Unfinished) -> Option<Vec<u8>> {
    let path = names::path_of(&build.name, home.top()).ok()?;
    let path = paths::normalized(&path);
    let all = Outputs::all_of(&path, build.grant);
    all.iter().for_each(|outputs| drop(outputs.remove()));
    let aside = &all.first()?.aside;
    if !folder::is_there(aside) {
        return None;
    }
    let known = Manifest::new(home, &build.name, &build.name).read().ok()?;
    let said = remove_known(aside, &known)?;
    Some(joined(&[&shown(&build.name), b": ", &said]))
}

#[cfg(test)]
mod tests;
