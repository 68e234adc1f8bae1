//! The files of `.redo`, which whoever can write them could use to have redo do what they like.
//!
//! So they are opened by descriptors, never through a link, and belong to one who is trusted. Paths
//! are relative to `.redo`.

use std::fs::{self, File, Permissions};
use std::io::{self, ErrorKind, Write};
use std::os::raw::c_int;
use std::os::unix::fs::PermissionsExt;
use std::os::unix::io::AsRawFd;

use libc::{O_APPEND, O_CREAT, O_EXCL, O_NOFOLLOW, O_NONBLOCK, O_PATH, O_RDWR, O_TRUNC, O_WRONLY};

use crate::error::{Distrust, FileError, Obstacle};
use crate::paths;
use crate::system::{self, Folder, Kind, Status};
use crate::top::HOME;
use crate::trust::{obstacle_of_folder, Trust};

/// The rights of a folder that is made, before umask.
const FOLDER_RIGHTS: u32 = 0o755;

/// How a file of `.redo` is opened.
#[derive(Clone, Copy, Debug, PartialEq, Eq)]
pub struct Opening {
    flags: c_int,
    rights: Option<u32>,
    folder_rights: Option<u32>,
}

impl Opening {
    /// To read it.
    pub const READ: Opening = Opening::by(libc::O_RDONLY);
    /// To write it anew, from nothing.
    pub const REPLACE: Opening = Opening::by(O_WRONLY | O_TRUNC);
    /// To read it, and to write it anywhere.
    pub const READ_WRITE: Opening = Opening::by(O_RDWR);
    /// To write behind its end.
    pub const APPEND: Opening = Opening::by(O_WRONLY | O_APPEND);

    const fn by(flags: c_int) -> Opening {
        Opening {
            flags,
            rights: None,
            folder_rights: None,
        }
    }

    /// The file is made if it is missing, with those of these rights that umask leaves.
    pub const fn making(self, rights: u32) -> Opening {
        Opening {
            rights: Some(rights),
            ..self
        }
    }

    /// Its folder is made if it is missing, and has no more than these rights.
    pub const fn making_folder(self, rights: u32) -> Opening {
        Opening {
            folder_rights: Some(rights),
            ..self
        }
    }
}

/// `.redo` of a tree.
#[derive(Clone, Debug)]
pub struct Home {
    top: Vec<u8>,
    trust: Trust,
}

impl Home {
    /// `top` is the top of the tree, absolute and without symbolic links.
    pub fn new(top: &[u8], trust: &Trust) -> Home {
        Home {
            top: top.to_vec(),
            trust: trust.clone(),
        }
    }

    /// The top of the tree.
    pub fn top(&self) -> &[u8] {
        &self.top
    }

    /// Whom the caller trusts.
    pub fn trust(&self) -> &Trust {
        &self.trust
    }

    /// Opens `.redo`, or a folder below it. With `rights`, what is missing is made, and the folder
    /// has no more rights than those.
    pub fn open_folder(&self, path: &[u8], rights: Option<u32>) -> Result<Folder, FileError> {
        let mut folder = self.open_home(rights.is_some())?;
        let mut here = self.home_path();
        for name in paths::parts(path) {
            here = paths::join(&here, name);
            folder = self.open_below(&folder, &here, rights)?;
        }
        Ok(folder)
    }

    /// Opens a regular file below `.redo`. Fails if it has another name too, or belongs to one who
    /// isn't trusted, and if it isn't there and isn't to be made.
    pub fn open_file(&self, path: &[u8], opening: Opening) -> Result<File, FileError> {
        let folder = self.open_folder(paths::parent(path), opening.folder_rights)?;
        let path = self.whole(path);
        loop {
            match self.opened(&folder, &path, opening.flags) {
                Err(FileError::System { cause, .. })
                    if cause.kind() == ErrorKind::NotFound && opening.rights.is_some() => {}
                other => return other,
            }
            let rights = opening.rights.unwrap_or(0);
            if let Some(file) = self.made(&folder, &path, opening.flags, rights)? {
                return Ok(file);
            }
        }
    }

    /// Reads a file of `.redo`. Fails as [`Home::open_file`].
    pub fn read(&self, path: &[u8]) -> Result<Vec<u8>, FileError> {
        let mut content = Vec::new();
        let mut file = self.open_file(path, Opening::READ)?;
        match io::Read::read_to_end(&mut file, &mut content) {
            Ok(_) => Ok(content),
            Err(cause) => Err(self.system(path, cause)),
        }
    }

    /// Writes a file of `.redo`, unless there is anything of its name. Makes `.redo`.
    pub fn write_once(&self, path: &[u8], text: &[u8]) -> Result<(), FileError> {
        let folder = self.open_folder(paths::parent(path), Some(FOLDER_RIGHTS))?;
        let path = self.whole(path);
        let mut file = match self.made(&folder, &path, O_WRONLY, 0o666)? {
            Some(file) => file,
            None => return Ok(()),
        };
        file.write_all(text).map_err(|cause| {
            let _ = folder.remove(paths::last(&path)); // the first error is the one to tell
            FileError::system(&path, cause)
        })
    }

    /// Puts a file with this content in the place of the one that is there, as a whole.
    pub fn replace(&self, path: &[u8], content: &[u8]) -> Result<(), FileError> {
        let new = [path, b".new"].concat();
        let mut file = self.open_file(&new, Opening::REPLACE.making(0o600))?;
        let folder = self.open_folder(paths::parent(path), None)?;
        file.write_all(content)
            .and_then(|()| folder.rename(paths::last(&new), paths::last(path)))
            .map_err(|cause| self.system(path, cause))
    }

    /// Makes what is missing of `.redo` and of the server's folder, which is the owner's alone.
    pub fn make(&self) -> Result<(), FileError> {
        if system::lstat(&self.whole(crate::top::places::SERVER)).is_err() {
            self.write_once(b".gitignore", b"*\n")?;
        }
        self.open_folder(crate::top::places::SERVER, Some(0o700))
            .map(drop)
    }

    /// Gives an open file that the caller made to the owner of the tree, if the caller is root.
    pub fn give_away(&self, file: &impl AsRawFd) -> Result<(), FileError> {
        let owner = system::stat(&self.top).map_err(|cause| FileError::system(&self.top, cause))?;
        if self.trust.is_root_at(owner.owner) {
            // this root may not, as in a namespace that hasn't got that user
            let _ = system::give(file, owner.owner, owner.group);
        }
        Ok(())
    }

    /// Opens the place of a socket of `.redo`, so that it can be named by the descriptor: the path
    /// of a socket may not be long. Fails if a link is there.
    pub fn open_socket(&self, path: &[u8]) -> Result<File, FileError> {
        let (folder, name) = paths::split(path);
        let failed = |cause| self.system(path, cause);
        let folder = self.open_folder(folder, None)?;
        let place = folder
            .open_file(name, O_PATH | O_NOFOLLOW, 0)
            .map_err(failed)?;
        if system::status_of(&place).map_err(failed)?.kind() == Kind::Link {
            let path = self.whole(path);
            return Err(Distrust::Misplaced {
                path,
                obstacle: Obstacle::Link,
            }
            .into());
        }
        Ok(place)
    }

    /// Gives a socket of an open folder to the owner of the tree, if the caller is root. What is no
    /// socket is left as it is.
    pub fn give_socket(&self, folder: &Folder, name: &[u8]) -> Result<(), FileError> {
        let failed = |cause| FileError::system(name, cause);
        let place = folder
            .open_file(name, O_PATH | O_NOFOLLOW, 0)
            .map_err(failed)?;
        if system::status_of(&place).map_err(failed)?.kind() == Kind::Socket {
            self.give_away(&place)?;
        }
        Ok(())
    }

    fn home_path(&self) -> Vec<u8> {
        paths::join(&self.top, HOME)
    }

    fn whole(&self, path: &[u8]) -> Vec<u8> {
        paths::join(&self.home_path(), path)
    }

    fn system(&self, path: &[u8], cause: io::Error) -> FileError {
        FileError::system(&self.whole(path), cause)
    }

    fn open_home(&self, is_made: bool) -> Result<Folder, FileError> {
        let path = self.home_path();
        let home = match Folder::open_itself(&path) {
            Err(cause) if is_made && cause.kind() == ErrorKind::NotFound => {
                self.trust.check_tree(&self.top, None)?;
                unless_there(system::make_folder(&path, FOLDER_RIGHTS), &path)?;
                Folder::open_itself(&path)
            }
            other => other,
        };
        let home = home.map_err(|cause| refusal(&path, cause, obstacle_of_folder))?;
        let status = home
            .status()
            .map_err(|cause| FileError::system(&path, cause))?;
        self.trust.check_tree(&self.top, Some(&status))?;
        if is_made {
            self.give_folder(&home, &status)?;
        }
        Ok(home)
    }

    fn open_below(
        &self,
        above: &Folder,
        path: &[u8],
        rights: Option<u32>,
    ) -> Result<Folder, FileError> {
        let name = paths::last(path);
        let folder = match (above.open_folder(name), rights) {
            (Err(cause), Some(rights)) if cause.kind() == ErrorKind::NotFound => {
                unless_there(above.make_folder(name, rights), path)?;
                above.open_folder(name)
            }
            (other, _) => other,
        };
        let folder = folder.map_err(|cause| refusal(path, cause, obstacle_of_folder))?;
        let status = folder
            .status()
            .map_err(|cause| FileError::system(path, cause))?;
        self.trust.check_owner(path, status.owner, &self.top)?;
        match rights {
            Some(rights) => self.restricted(folder, &status, path, rights),
            None => Ok(folder),
        }
    }

    /// Returns a folder, with no more rights than these.
    fn restricted(
        &self,
        folder: Folder,
        status: &Status,
        path: &[u8],
        rights: u32,
    ) -> Result<Folder, FileError> {
        self.give_folder(&folder, status)?;
        if status.mode & 0o777 & !rights == 0 {
            return Ok(folder);
        }
        let file = File::from(folder);
        file.set_permissions(Permissions::from_mode(rights))
            .map_err(|cause| FileError::system(path, cause))?;
        Ok(Folder::from(file))
    }

    /// Gives root's folder to the owner of the tree, if it is empty, as a new one is.
    fn give_folder(&self, folder: &Folder, status: &Status) -> Result<(), FileError> {
        if self.trust.caller == 0 && status.owner == 0 && is_empty(folder) {
            self.give_away(folder)?;
        }
        Ok(())
    }

    /// Returns a file that is made now, or None if there is one.
    fn made(
        &self,
        folder: &Folder,
        path: &[u8],
        flags: c_int,
        rights: u32,
    ) -> Result<Option<File>, FileError> {
        let flags = flags & !O_TRUNC | O_CREAT | O_EXCL;
        match folder.open_file(paths::last(path), flags, rights) {
            Ok(file) => self.give_away(&file).map(|()| Some(file)),
            Err(cause) if cause.kind() == ErrorKind::AlreadyExists => Ok(None),
            Err(cause) => Err(FileError::system(path, cause)),
        }
    }

    /// Returns a file that is there.
    fn opened(&self, folder: &Folder, path: &[u8], flags: c_int) -> Result<File, FileError> {
        let careful = flags & !O_TRUNC | O_NOFOLLOW | O_NONBLOCK;
        let file = folder
            .open_file(paths::last(path), careful, 0)
            .map_err(|cause| refusal(path, cause, obstacle_of_file))?;
        let failed = |cause| FileError::system(path, cause);
        let status = system::status_of(&file).map_err(failed)?;
        check_file(&status, path)?;
        self.trust.check_owner(path, status.owner, &self.top)?;
        system::set_blocking(&file).map_err(failed)?;
        if flags & O_TRUNC != 0 && status.size != 0 {
            file.set_len(0).map_err(failed)?;
        }
        Ok(file)
    }
}

/// Passes over the error that somebody else has made a folder.
fn unless_there(made: io::Result<()>, path: &[u8]) -> Result<(), FileError> {
    match made {
        Err(cause) if cause.kind() == ErrorKind::AlreadyExists => Ok(()),
        other => other.map_err(|cause| FileError::system(path, cause)),
    }
}

fn is_empty(folder: &Folder) -> bool {
    let path = format!("/proc/self/fd/{}", folder.as_raw_fd());
    fs::read_dir(path).map_or(false, |mut entries| entries.next().is_none())
}

/// Fails if an open file isn't a regular one with one name.
fn check_file(status: &Status, path: &[u8]) -> Result<(), FileError> {
    let path = path.to_vec();
    if let Some(obstacle) = obstacle_of_file(status) {
        return Err(Distrust::Misplaced { path, obstacle }.into());
    }
    if status.names > 1 {
        return Err(Distrust::ManyNames {
            path,
            names: status.names,
        }
        .into());
    }
    Ok(())
}

/// Returns what is in the place of a regular file, if it is none.
fn obstacle_of_file(status: &Status) -> Option<Obstacle> {
    match status.kind() {
        Kind::Regular => None,
        Kind::Link => Some(Obstacle::Link),
        Kind::Folder => Some(Obstacle::Folder),
        Kind::Socket | Kind::Other => Some(Obstacle::NoRegularFile),
    }
}

/// Returns the error that something can't be opened: what is in its place, if that is the reason.
fn refusal(
    path: &[u8],
    cause: io::Error,
    obstacle_of: impl Fn(&Status) -> Option<Obstacle>,
) -> FileError {
    match system::lstat(path).ok().as_ref().and_then(obstacle_of) {
        Some(obstacle) => Distrust::Misplaced {
            path: path.to_vec(),
            obstacle,
        }
        .into(),
        None => FileError::system(path, cause),
    }
}

#[cfg(test)]
mod tests;
