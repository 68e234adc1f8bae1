//! Small things about bytes that are paths, or that are shown.

use std::ffi::OsStr;
use std::io;
use std::os::unix::ffi::OsStrExt;
use std::path::Path;

/// Returns bytes as a path of the standard library.
pub fn path(bytes: &[u8]) -> &Path {
    Path::new(OsStr::from_bytes(bytes))
}

/// Returns the last part of a path.
pub fn last_part(path: &[u8]) -> &[u8] {
    redo_files::paths::split(path).1
}

/// Returns what an error is called, without its number.
pub fn cause_of(error: &io::Error) -> String {
    let text = error.to_string();
    match text.split_once(" (os error") {
        Some((name, _)) => name.to_string(),
        None => text,
    }
}

/// Returns a path as it is printed: control characters are written `\xNN`.
pub fn shown(path: &[u8]) -> Vec<u8> {
    if path.iter().any(u8::is_ascii_control) {
        redo_files::paths::shown(path)
    } else {
        path.to_vec()
    }
}

/// Returns texts one behind the other.
pub fn joined(parts: &[&[u8]]) -> Vec<u8> {
    parts.concat()
}

/// Returns bytes as hexadecimal digits.
pub fn digits(bytes: &[u8]) -> String {
    bytes.iter().map(|byte| format!("{byte:02x}")).collect()
}

#[cfg(test)]
mod tests {
    use super::*;

    #[test]
    fn an_error_is_told_as_the_c_library_tells_it() {
        let error = io::Error::from_raw_os_error(libc::ENOENT);
        assert_eq!(cause_of(&error), "No such file or directory");
        assert_eq!(
            cause_of(&io::Error::new(io::ErrorKind::Other, "odd")),
            "odd"
        );
    }
}
