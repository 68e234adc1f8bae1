//! What a script writes: the names of its files, and how one of them becomes the target.

use std::fs::{self, File, OpenOptions, Permissions};
use std::io::{self, ErrorKind};
use std::os::unix::fs::{OpenOptionsExt, PermissionsExt};

use redo_files::key::Time;
use redo_files::look::Reader;
use redo_files::paths::{self, shown};
use redo_files::sha256;
use redo_files::stamp::Stamp;
use redo_files::system::{self, Folder, Kind};

use crate::ending::{Ending, Failure};
use crate::folder::{self, is_folder, is_there, Manifest};
use crate::program::Exit;
use crate::removal;
use crate::text::{cause_of, digits, joined, last_part, path};

const LONGEST_NAME: usize = 255;
/// So long is what follows the mark of a build.
const SUFFIX: usize = 4;
const DIGITS: usize = 8;

/// The files of a build, by absolute paths.
#[derive(Clone, Debug, PartialEq, Eq)]
pub struct Outputs {
    /// `$3`.
    pub third: Vec<u8>,
    /// The file that takes standard output.
    pub standard: Vec<u8>,
    /// Where a former folder waits until the new one is in its place.
    pub aside: Vec<u8>,
}

/// A script that has ended.
#[derive(Clone, Copy, Debug)]
pub struct Ended<'a> {
    /// The name of its file, as it is shown.
    pub name: &'a [u8],
    /// The absolute path of its target.
    pub target: &'a [u8],
    pub before: Before,
    pub exit: Exit,
    /// It was to end, so that it may have left out what it was to do.
    pub is_stopped: bool,
}

/// What the file of a target was before its script began.
#[derive(Clone, Copy, Debug, PartialEq, Eq)]
pub struct Before(Option<(u64, Time, Kind)>);

impl Outputs {
    /// Returns those of a build: that of a target, by its absolute path, in a grant of its lock.
    ///
    /// They are beside the target, or in the nearest folder above that is there. No other build
    /// has files of these names, neither of this target nor of another.
    pub fn of(target: &[u8], grant: u64) -> Outputs {
        let is_in_a_folder = |one: &Outputs| path(paths::parent(&one.third)).is_dir();
        let near = Outputs::all_of(target, grant)
            .into_iter()
            .find(is_in_a_folder);
        near.unwrap_or_else(|| Outputs::in_folder(b"", target, grant, target))
    }

    /// Returns those of a build for each folder above its target, the nearest first.
    pub fn all_of(target: &[u8], grant: u64) -> Vec<Outputs> {
        let inside = target
            .iter()
            .enumerate()
            .rev()
            .filter(|(_, byte)| **byte == b'/');
        let parted = inside.map(|(place, _)| (&target[..place], &target[place + 1..]));
        parted
            .map(|(folder, rest)| Outputs::in_folder(folder, rest, grant, target))
            .collect()
    }

    fn in_folder(folder: &[u8], rest: &[u8], grant: u64, target: &[u8]) -> Outputs {
        let (beside, last) = paths::split(target);
        let here = joined(&[folder, b"/", &marked(rest, grant)]);
        Outputs {
            third: joined(&[&here, b".tmp"]),
            standard: joined(&[&here, b".out"]),
            aside: joined(&[
                &paths::join(beside, &marked(last, grant)),
                b".old".as_slice(),
            ]),
        }
    }

    /// Returns the first that is there, whoever made it.
    pub fn there(&self) -> Option<&[u8]> {
        let mut paths = [&self.third, &self.standard, &self.aside].into_iter();
        paths.find(|path| is_there(path)).map(Vec::as_slice)
    }

    /// Makes the file that takes standard output, with the rights that a umask leaves. Fails if it
    /// is there.
    pub fn open_standard(&self, umask: u32, own_umask: u32) -> Result<File, Failure> {
        let mut options = OpenOptions::new();
        let options = options.write(true).create_new(true).mode(0o666);
        let opened = options.open(path(&self.standard));
        let file = opened.map_err(|cause| {
            let name = shown(last_part(&self.standard));
            Failure::CantInstall(joined(&[&name, b": ", cause_of(&cause).as_bytes()]))
        })?;
        if umask != own_umask {
            file.set_permissions(Permissions::from_mode(0o666 & !umask))?;
        }
        Ok(file)
    }

    /// Removes what a script wrote, if it is there.
    pub fn remove(&self) -> io::Result<()> {
        let third = removal::remove(&self.third);
        removal::remove(&self.standard).and(third)
    }

    /// Makes what a script wrote the target, if all is well. Its files are gone afterwards.
    pub fn settle(&self, script: &Ended, manifest: &Manifest, reader: &mut Reader) -> Ending {
        let settled = self.settled(script, manifest, reader);
        let removed = self.remove().map_err(Failure::from);
        match settled.and_then(|built| removed.map(|()| built)) {
            Ok((stamp, said)) => Ending::Built { stamp, said },
            Err(failure) => Ending::Failed(failure),
        }
    }

    fn settled(
        &self,
        script: &Ended,
        manifest: &Manifest,
        reader: &mut Reader,
    ) -> Result<(Option<Stamp>, Vec<Vec<u8>>), Failure> {
        if script.exit != Exit::Status(0) {
            return Err(Failure::Script(script.exit));
        }
        if script.is_stopped {
            return Err(Failure::Stopped);
        }
        if script.before.was_written(Before::of(script.target)) {
            return Err(Failure::WroteTarget(script.name.to_vec()));
        }
        let written = system::lstat(&self.standard).map_or(0, |status| status.size) > 0;
        match (is_there(&self.third), written) {
            (true, true) => Err(Failure::WroteTwice(script.name.to_vec())),
            (true, false) => self.install(&self.third, script.target, manifest, reader),
            (false, true) => self.install(&self.standard, script.target, manifest, reader),
            (false, false) if is_folder(script.target) => Ok((Some(Stamp::Folder), Vec::new())),
            (false, false) => {
                remove_file(script.target)?;
                Ok((None, Vec::new()))
            }
        }
    }

    /// Renames what was made to the target. A folder takes the place of a folder that was built.
    ///
    /// The stamp is that of what was made, before anybody could edit the target. A link has its
    /// stamp where it is, since its text may say where to go from there.
    fn install(
        &self,
        made: &[u8],
        target: &[u8],
        manifest: &Manifest,
        reader: &mut Reader,
    ) -> Result<(Option<Stamp>, Vec<Vec<u8>>), Failure> {
        let stamp = stamp_of(made, reader)?;
        let kind = system::lstat(made)?.kind();
        if kind == Kind::Folder {
            let said = folder::replace(made, target, &self.aside, manifest)?;
            return Ok((stamp, said));
        }
        if is_folder(target) {
            let text = b"it is a folder, which no file replaces: remove it, or move it";
            return Err(Failure::CantInstall(text.to_vec()));
        }
        fs::rename(path(made), path(target))?;
        let stamp = match kind {
            Kind::Link => stamp_of(target, reader)?,
            _ => stamp,
        };
        Ok((stamp, Vec::new()))
    }
}

impl Before {
    /// Returns what the file of a target is now.
    pub fn of(target: &[u8]) -> Before {
        let status = system::lstat(target).ok();
        Before(status.map(|status| (status.inode, status.modified, status.kind())))
    }

    /// Says whether a target was written since; a folder never was.
    fn was_written(self, after: Before) -> bool {
        match (self.0, after.0) {
            (_, None | Some((_, _, Kind::Folder))) => false,
            (None, Some(_)) => true,
            (Some(before), Some(after)) => (before.0, before.1) != (after.0, after.1),
        }
    }
}

fn remove_file(place: &[u8]) -> io::Result<()> {
    match fs::remove_file(path(place)) {
        Err(cause) if cause.kind() == ErrorKind::NotFound => Ok(()),
        other => other,
    }
}

/// Returns the stamp of what is at a path, or None if nothing is.
pub fn stamp_of(place: &[u8], reader: &mut Reader) -> io::Result<Option<Stamp>> {
    let (folder, name) = paths::split(place);
    let folder = Folder::open(if folder.is_empty() { b"." } else { folder })?;
    Ok(reader.look_at(&folder, name).stamp)
}

/// Returns the name of the files in a folder from which `rest` is the path of the target.
fn marked(rest: &[u8], grant: u64) -> Vec<u8> {
    let parts: Vec<&[u8]> = rest.split(|byte| *byte == b'/').collect();
    let mut name = parts.join(b"__".as_slice());
    let mut mark = format!(".redo.{grant}");
    if parts.len() > 1 || name.len() + mark.len() + SUFFIX > LONGEST_NAME {
        mark.push('-');
        mark.push_str(&digits(&sha256::digest(rest))[..DIGITS]);
    }
    name.truncate(LONGEST_NAME - mark.len() - SUFFIX);
    name.extend_from_slice(mark.as_bytes());
    name
}

#[cfg(test)]
mod tests;
