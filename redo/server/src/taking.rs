//! Which process is the server of a tree.

use std::fs::File;
use std::io::{Seek, SeekFrom, Write};
use std::os::unix::io::AsRawFd;
use std::os::unix::net::{UnixListener, UnixStream};
use std::process;

use redo_files::private::{Home, Opening};
use redo_files::system::{self as files, Folder};
use redo_files::top::{places, HOME};
use redo_files::{paths, FileError};

use crate::error::ServerError;
use crate::system;

const BACKLOG: i32 = 1024;
const SOCKET: &[u8] = b"socket";
const NEW: &[u8] = b"new";

/// The place of the server: its lock, and the socket that it listens on.
///
/// Who has the lock of `.redo/server/lock` is the server; the kernel releases it when the process
/// ends. So a socket that is found with the lock is that of a dead server, and is replaced.
#[derive(Debug)]
pub struct Taken {
    pub home: Home,
    /// None once nobody is let in any more.
    pub listener: Option<UnixListener>,
    folder: Folder,
    lock: File,
}

/// Becomes the server of a tree. None if one is there.
pub fn take(home: Home) -> Result<Option<Taken>, ServerError> {
    home.make()?;
    let lock = home.open_file(places::LOCK, Opening::READ_WRITE.making(0o600))?;
    if !system::lock(&lock).map_err(ServerError::system("lock"))? {
        return Ok(None);
    }
    check_log(&home)?;
    let folder = home.open_folder(places::SERVER, None)?;
    let listener = Some(listen(&home, &folder)?);
    Ok(Some(Taken {
        home,
        listener,
        folder,
        lock,
    }))
}

impl Taken {
    /// Writes the number of this process into the lock's file, for people to read.
    pub fn sign(&mut self) -> Result<(), ServerError> {
        let line = format!("{}\n", process::id());
        self.lock
            .set_len(0)
            .and_then(|()| self.lock.seek(SeekFrom::Start(0)))
            .and_then(|_| self.lock.write_all(line.as_bytes()))
            .map_err(ServerError::system("lock"))
    }

    /// Lets nobody come any more. A socket that stays in its folder is that of a dead server.
    pub fn close(&mut self) {
        let _ = self.folder.remove(SOCKET);
        self.listener = None;
    }

    /// Says whether who connected is the user of this process, root, or the tree's owner.
    pub fn lets_in(&self, connection: &UnixStream) -> bool {
        let socket = self.whole(places::SOCKET);
        let trust = self.home.trust();
        trust
            .check_peer(connection, &socket, self.home.top())
            .is_ok()
    }

    /// Says whether the lock is in its place still: else `.redo` was removed.
    pub fn stands(&self) -> bool {
        match (
            files::lstat(&self.whole(places::LOCK)),
            files::status_of(&self.lock),
        ) {
            (Ok(there), Ok(own)) => (there.device, there.inode) == (own.device, own.inode),
            _ => false,
        }
    }

    /// Returns the path of a file of `.redo`.
    pub fn whole(&self, path: &[u8]) -> Vec<u8> {
        paths::join(&paths::join(self.home.top(), HOME), path)
    }
}

/// Checks the log, which redodb-live opens by its name. What root would make is made before.
fn check_log(home: &Home) -> Result<(), FileError> {
    let owner = files::stat(home.top()).map_err(|cause| FileError::system(home.top(), cause))?;
    let opening = if home.trust().is_root_at(owner.owner) {
        Opening::READ.making(0o666)
    } else {
        Opening::READ
    };
    match home.open_file(places::LOG, opening) {
        Err(FileError::System { cause, .. }) if cause.kind() == std::io::ErrorKind::NotFound => {
            Ok(())
        }
        other => other.map(drop),
    }
}

/// Listens on the socket of the tree, which takes its place when clients can come.
///
/// It is bound by the descriptor of its folder, since the path of a socket may not be long.
fn listen(home: &Home, folder: &Folder) -> Result<UnixListener, ServerError> {
    let failed = ServerError::system("socket");
    folder.remove(NEW).map_err(&failed)?;
    let path = format!("/proc/self/fd/{}/new", folder.as_raw_fd());
    let listener = system::listen(&path, BACKLOG).map_err(&failed)?;
    listener.set_nonblocking(true).map_err(&failed)?;
    home.give_socket(folder, NEW)?;
    folder.rename(NEW, SOCKET).map_err(&failed)?;
    Ok(listener)
}
