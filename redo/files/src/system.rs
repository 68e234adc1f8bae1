//! The calls of the kernel that std doesn't have: those by an open folder, and who the caller is.
//!
//! All `unsafe` of the crate is here. Each call gets texts that end with NUL, which live until it
//! returns, and room for what it writes.

#![allow(unsafe_code)]

use std::ffi::CString;
use std::fs::File;
use std::io::{self, ErrorKind};
use std::mem::MaybeUninit;
use std::os::raw::c_int;
use std::os::unix::io::{AsRawFd, FromRawFd, OwnedFd};
use std::os::unix::net::UnixStream;

use libc::{AT_FDCWD, AT_SYMLINK_NOFOLLOW, O_CLOEXEC};

use crate::key::Time;

const NAME_ROOM: usize = 4096;

/// What `lstat` or `stat` says of a file.
#[derive(Clone, Copy, Debug, PartialEq, Eq)]
pub struct Status {
    /// Its kind and its rights.
    pub mode: u32,
    /// In bytes.
    pub size: i64,
    /// When its content changed last.
    pub modified: Time,
    /// When anything of it changed last.
    pub changed: Time,
    /// Its number in its file system.
    pub inode: u64,
    /// The number of its file system.
    pub device: u64,
    /// The device that a device file is.
    pub is_device: u64,
    /// How many names the file has.
    pub names: libc::nlink_t,
    /// The user whose it is.
    pub owner: u32,
    /// The group whose it is.
    pub group: u32,
}

/// What a file is.
#[derive(Clone, Copy, Debug, PartialEq, Eq)]
pub enum Kind {
    /// A plain file.
    Regular,
    /// A folder.
    Folder,
    /// A symbolic link.
    Link,
    /// A socket.
    Socket,
    /// A FIFO or a device.
    Other,
}

impl Status {
    /// Returns what the file is.
    pub fn kind(&self) -> Kind {
        match self.mode & libc::S_IFMT {
            libc::S_IFREG => Kind::Regular,
            libc::S_IFDIR => Kind::Folder,
            libc::S_IFLNK => Kind::Link,
            libc::S_IFSOCK => Kind::Socket,
            _ => Kind::Other,
        }
    }
}

impl From<libc::stat> for Status {
    fn from(told: libc::stat) -> Status {
        Status {
            mode: told.st_mode,
            size: told.st_size,
            modified: Time::new(told.st_mtime, told.st_mtime_nsec),
            changed: Time::new(told.st_ctime, told.st_ctime_nsec),
            inode: told.st_ino,
            device: told.st_dev,
            is_device: told.st_rdev,
            names: told.st_nlink,
            owner: told.st_uid,
            group: told.st_gid,
        }
    }
}

/// An open folder. The paths of its methods are relative to it, or absolute.
#[derive(Debug)]
pub struct Folder(OwnedFd);

impl Folder {
    /// Opens the folder at a path, from which looks at files begin.
    pub fn open(path: &[u8]) -> io::Result<Folder> {
        let flags = libc::O_RDONLY | libc::O_DIRECTORY;
        open_at(AT_FDCWD, path, flags, 0).map(Folder)
    }

    /// Opens the folder at a path, if it is no link.
    pub fn open_itself(path: &[u8]) -> io::Result<Folder> {
        let flags = libc::O_RDONLY | libc::O_DIRECTORY | libc::O_NOFOLLOW;
        open_at(AT_FDCWD, path, flags, 0).map(Folder)
    }

    /// Opens a folder in this one, if it is no link.
    pub fn open_folder(&self, path: &[u8]) -> io::Result<Folder> {
        let flags = libc::O_RDONLY | libc::O_DIRECTORY | libc::O_NOFOLLOW;
        open_at(self.0.as_raw_fd(), path, flags, 0).map(Folder)
    }

    /// Opens a file as `openat`. A file that is made gets the bits of `mode` that umask leaves.
    pub fn open_file(&self, path: &[u8], flags: c_int, mode: u32) -> io::Result<File> {
        open_at(self.0.as_raw_fd(), path, flags, mode).map(File::from)
    }

    /// Says what is at a path; of a symbolic link, what that itself is.
    pub fn lstat(&self, path: &[u8]) -> io::Result<Status> {
        status_at(self.0.as_raw_fd(), path, AT_SYMLINK_NOFOLLOW)
    }

    /// Says what is at a path; of a symbolic link, what it leads to.
    pub fn stat(&self, path: &[u8]) -> io::Result<Status> {
        status_at(self.0.as_raw_fd(), path, 0)
    }

    /// Says what this folder is.
    pub fn status(&self) -> io::Result<Status> {
        status_of(&self.0)
    }

    /// Returns the text of a symbolic link.
    pub fn read_link(&self, path: &[u8]) -> io::Result<Vec<u8>> {
        read_link_at(self.0.as_raw_fd(), path)
    }

    /// Makes a folder, with the rights of `mode` that umask leaves.
    pub fn make_folder(&self, path: &[u8], mode: u32) -> io::Result<()> {
        make_folder_at(self.0.as_raw_fd(), path, mode)
    }

    /// Removes a name that is no folder's. It is no error if there is none.
    pub fn remove(&self, path: &[u8]) -> io::Result<()> {
        let path = CString::new(path)?;
        // SAFETY: the path ends with NUL, and unlinkat writes nothing.
        let removed = checked(|| unsafe { libc::unlinkat(self.0.as_raw_fd(), path.as_ptr(), 0) });
        match removed {
            Err(cause) if cause.kind() == ErrorKind::NotFound => Ok(()),
            other => other.map(drop),
        }
    }

    /// Gives a file of this folder another name in it, in place of what has that.
    pub fn rename(&self, from: &[u8], to: &[u8]) -> io::Result<()> {
        let (from, to, folder) = (CString::new(from)?, CString::new(to)?, self.0.as_raw_fd());
        // SAFETY: both paths end with NUL, and renameat writes nothing.
        checked(|| unsafe { libc::renameat(folder, from.as_ptr(), folder, to.as_ptr()) }).map(drop)
    }

    /// Sets both times of a file, or of the link itself, to now.
    pub fn touch(&self, path: &[u8]) -> io::Result<()> {
        let (path, folder) = (CString::new(path)?, self.0.as_raw_fd());
        let (now, flags) = (std::ptr::null(), AT_SYMLINK_NOFOLLOW);
        // SAFETY: the path ends with NUL; without times utimensat takes the time of now.
        checked(|| unsafe { libc::utimensat(folder, path.as_ptr(), now, flags) }).map(drop)
    }
}

impl AsRawFd for Folder {
    fn as_raw_fd(&self) -> c_int {
        self.0.as_raw_fd()
    }
}

impl From<File> for Folder {
    fn from(file: File) -> Folder {
        Folder(OwnedFd::from(file))
    }
}

impl From<Folder> for File {
    fn from(folder: Folder) -> File {
        File::from(folder.0)
    }
}

/// Says what is at a path, which is absolute or relative to the working folder; of a symbolic
/// link, what that itself is.
pub fn lstat(path: &[u8]) -> io::Result<Status> {
    status_at(AT_FDCWD, path, AT_SYMLINK_NOFOLLOW)
}

/// Says what is at a path, as [`lstat`]; of a symbolic link, what it leads to.
pub fn stat(path: &[u8]) -> io::Result<Status> {
    status_at(AT_FDCWD, path, 0)
}

/// Returns the text of a symbolic link at a path, as [`lstat`].
pub fn read_link(path: &[u8]) -> io::Result<Vec<u8>> {
    read_link_at(AT_FDCWD, path)
}

/// Makes a folder at a path, as [`Folder::make_folder`].
pub fn make_folder(path: &[u8], mode: u32) -> io::Result<()> {
    make_folder_at(AT_FDCWD, path, mode)
}

/// Says what an open file is.
pub fn status_of(file: &impl AsRawFd) -> io::Result<Status> {
    let mut told = MaybeUninit::<libc::stat>::uninit();
    // SAFETY: there is room for a stat, and fstat fills all of it if it returns no error.
    checked(|| unsafe { libc::fstat(file.as_raw_fd(), told.as_mut_ptr()) })?;
    // SAFETY: fstat has filled it.
    Ok(Status::from(unsafe { told.assume_init() }))
}

/// Has reads and writes of an open file wait.
pub fn set_blocking(file: &impl AsRawFd) -> io::Result<()> {
    let file = file.as_raw_fd();
    // SAFETY: F_GETFL takes nothing else, and writes nothing.
    let flags = checked(|| unsafe { libc::fcntl(file, libc::F_GETFL) })?;
    // SAFETY: F_SETFL takes flags, and writes nothing.
    checked(|| unsafe { libc::fcntl(file, libc::F_SETFL, flags & !libc::O_NONBLOCK) }).map(drop)
}

/// Gives an open file to a user and a group, also one that was opened for its place alone.
pub fn give(file: &impl AsRawFd, owner: u32, group: u32) -> io::Result<()> {
    let path = CString::new(format!("/proc/self/fd/{}", file.as_raw_fd()))?;
    // SAFETY: the path ends with NUL, and chown writes nothing.
    checked(|| unsafe { libc::chown(path.as_ptr(), owner, group) }).map(drop)
}

/// Returns the effective user of this process.
pub fn caller() -> u32 {
    // SAFETY: geteuid takes nothing, writes nothing, and can't fail.
    unsafe { libc::geteuid() }
}

/// Returns the user of the process that connected the other end of a socket.
pub fn peer(connection: &UnixStream) -> io::Result<u32> {
    let mut told = libc::ucred {
        pid: 0,
        uid: 0,
        gid: 0,
    };
    let mut room = std::mem::size_of::<libc::ucred>() as libc::socklen_t;
    let (socket, level, option) = (connection.as_raw_fd(), libc::SOL_SOCKET, libc::SO_PEERCRED);
    let place: *mut libc::ucred = &mut told;
    // SAFETY: there is room for a ucred, and `room` says how much.
    checked(|| unsafe { libc::getsockopt(socket, level, option, place.cast(), &mut room) })?;
    Ok(told.uid)
}

/// Returns what a user is called in /etc/passwd, or None if the user isn't there. The library of C
/// would ask others too, but a program that is linked statically can't load what it takes.
pub fn user_name(user: u32) -> Option<Vec<u8>> {
    let accounts = std::fs::read("/etc/passwd").ok()?;
    let number = user.to_string();
    let mut accounts = accounts.split(|byte| *byte == b'\n');
    accounts.find_map(|account| {
        let mut fields = account.split(|byte| *byte == b':');
        let (name, told) = (fields.next()?, fields.nth(1)?);
        (told == number.as_bytes()).then(|| name.to_vec())
    })
}

fn open_at(folder: c_int, path: &[u8], flags: c_int, mode: u32) -> io::Result<OwnedFd> {
    let path = CString::new(path)?;
    let flags = flags | O_CLOEXEC;
    // SAFETY: the path ends with NUL, and openat writes nothing.
    let file = checked(|| unsafe { libc::openat(folder, path.as_ptr(), flags, mode) })?;
    // SAFETY: openat has made this descriptor, and nobody else has it.
    Ok(unsafe { OwnedFd::from_raw_fd(file) })
}

fn status_at(folder: c_int, path: &[u8], flags: c_int) -> io::Result<Status> {
    let path = CString::new(path)?;
    let mut told = MaybeUninit::<libc::stat>::uninit();
    // SAFETY: the path ends with NUL; there is room for a stat, which fstatat fills.
    checked(|| unsafe { libc::fstatat(folder, path.as_ptr(), told.as_mut_ptr(), flags) })?;
    // SAFETY: fstatat has filled it.
    Ok(Status::from(unsafe { told.assume_init() }))
}

fn read_link_at(folder: c_int, path: &[u8]) -> io::Result<Vec<u8>> {
    let path = CString::new(path)?;
    let mut text = [0_u8; NAME_ROOM];
    let place = text.as_mut_ptr().cast();
    // SAFETY: the path ends with NUL, and readlinkat writes at most as much as there is room for.
    let length = unsafe { libc::readlinkat(folder, path.as_ptr(), place, NAME_ROOM) };
    match usize::try_from(length) {
        Ok(length) => Ok(text[..length].to_vec()),
        Err(_) => Err(io::Error::last_os_error()),
    }
}

fn make_folder_at(folder: c_int, path: &[u8], mode: u32) -> io::Result<()> {
    let path = CString::new(path)?;
    // SAFETY: the path ends with NUL, and mkdirat writes nothing.
    checked(|| unsafe { libc::mkdirat(folder, path.as_ptr(), mode) }).map(drop)
}

/// Does a call, again if a signal came, and returns what it returned or why it failed.
fn checked(mut call: impl FnMut() -> c_int) -> io::Result<c_int> {
    loop {
        let returned = call();
        if returned >= 0 {
            return Ok(returned);
        }
        let cause = io::Error::last_os_error();
        if cause.kind() != ErrorKind::Interrupted {
            return Err(cause);
        }
    }
}
