//! The calls of the kernel that std doesn't have. All `unsafe` of the program is here.

#![allow(unsafe_code)]

use std::io::{self, ErrorKind};
use std::os::raw::c_int;
use std::os::unix::io::AsRawFd;
use std::os::unix::process::CommandExt;
use std::process::Command;

/// Says whether the other end of a socket hasn't read all that was sent to it.
pub fn has_unread(socket: &impl AsRawFd) -> bool {
    let mut bytes: c_int = 0;
    let place: *mut c_int = &mut bytes;
    // SAFETY: TIOCOUTQ, which is SIOCOUTQ, writes an int, for which there is room.
    let told = unsafe { libc::ioctl(socket.as_raw_fd(), libc::TIOCOUTQ, place) };
    told == 0 && bytes > 0
}

/// Waits until nobody else has the lock of an open file, and takes it.
pub fn lock(file: &impl AsRawFd) -> io::Result<()> {
    loop {
        // SAFETY: flock takes numbers, and writes nothing.
        if unsafe { libc::flock(file.as_raw_fd(), libc::LOCK_EX) } == 0 {
            return Ok(());
        }
        let cause = io::Error::last_os_error();
        if cause.kind() != ErrorKind::Interrupted {
            return Err(cause);
        }
    }
}

/// Has a program be the leader of a session of its own, so that no key of a terminal ends it.
pub fn in_own_session(command: &mut Command) -> &mut Command {
    // SAFETY: between fork and exec only setsid is called, which may be called there.
    unsafe {
        command.pre_exec(|| match libc::setsid() {
            -1 => Err(io::Error::last_os_error()),
            _ => Ok(()),
        })
    }
}

#[cfg(test)]
mod tests {
    use super::*;
    use std::io::{Read, Write};
    use std::os::unix::net::UnixStream;

    #[test]
    fn what_the_other_end_has_not_read_is_known() {
        let (mut near, mut far) = UnixStream::pair().unwrap();
        assert!(!has_unread(&near));
        near.write_all(b"abc").unwrap();
        assert!(has_unread(&near));
        far.read_exact(&mut [0; 3]).unwrap();
        assert!(!has_unread(&near));
    }
}
