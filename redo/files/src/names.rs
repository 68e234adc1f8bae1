//! The name of a file in the database, and the file of a name.
//!
//! A name is the path of the file relative to the top of the tree, with symbolic links in the
//! folder part resolved. It has 1 to 255 bytes. Bytes that no name may have are written `%XX`.

use std::borrow::Cow;

use crate::error::FileError;
use crate::links;
use crate::paths;

/// The one name without a file: its stamp changes in each run.
pub const ALWAYS: &[u8] = b"//always";

/// With a target's name behind it: the content of a target that somebody edited, as a source.
pub const EDITED: &[u8] = b"//edited/";

/// With a target's name behind it: the file that the target's last build left when it failed.
pub const LEFT: &[u8] = b"//left/";

/// So many bytes has a name at most.
pub const MOST_BYTES: usize = 255;

const DIGITS: &[u8; 16] = b"0123456789ABCDEF";

/// Says whether the database takes these bytes as a name.
pub fn is_name(name: &[u8]) -> bool {
    (1..=MOST_BYTES).contains(&name.len())
        && name.iter().all(u8::is_ascii_graphic)
        && !is_reserved(name)
}

/// Says whether a name is one of redo's own, which no path has.
pub fn is_internal(name: &[u8]) -> bool {
    name.starts_with(b"//")
}

/// Returns the name of a target's content, for what is built from it after it was edited. It is
/// the target itself if it is too long for another name.
pub fn edited_name(target: &[u8]) -> Vec<u8> {
    let name = [EDITED, target].concat();
    if name.len() <= MOST_BYTES {
        name
    } else {
        target.to_vec()
    }
}

/// Returns the name of a path, which is absolute or relative to the working folder.
///
/// `top` is the top of the tree, absolute and without symbolic links. The last part of the path is
/// kept as it is, also if it is a symbolic link; a path that ends with `/`, `.` or `..` is a
/// folder, and resolved whole. Fails if the path is empty or has a NUL, if the name is too long,
/// and if the path is relative and there is no working folder.
pub fn name_of(path: &[u8], top: &[u8]) -> Result<Vec<u8>, FileError> {
    if path.is_empty() {
        return Err(FileError::EmptyPath);
    }
    if path.contains(&0) {
        return Err(FileError::NulInPath(path.to_vec()));
    }
    let whole = whole_path(path).map_err(|cause| FileError::system(path, cause))?;
    let name = match paths::inside(&whole, top) {
        Some(inside) => escape(inside)?.into_owned(),
        None => escape(&paths::relative(&whole, top))?.into_owned(),
    };
    Ok(name)
}

/// Returns the path of a name, below `top` (or beside it, if the name begins with `../`).
///
/// Fails if the name is one of redo's own, or isn't one that [`name_of`] returns.
pub fn path_of(name: &[u8], top: &[u8]) -> Result<Vec<u8>, FileError> {
    if is_internal(name) {
        return Err(FileError::InternalName(name.to_vec()));
    }
    Ok(paths::join(top, &unescape(name)?))
}

/// Returns the path of a name from a folder. A name that no path has is returned as it is.
pub fn relative_path(name: &[u8], top: &[u8], folder: &[u8]) -> Vec<u8> {
    match path_of(name, top) {
        Ok(path) => paths::relative(&path, folder),
        Err(_) => name.to_vec(),
    }
}

/// Returns a relative path as a name. Fails if that is too long.
pub fn escape(path: &[u8]) -> Result<Cow<'_, [u8]>, FileError> {
    let name = if path.iter().all(|byte| is_plain(*byte)) && !is_reserved(path) {
        Cow::Borrowed(path)
    } else {
        Cow::Owned(escaped(path))
    };
    if name.len() > MOST_BYTES {
        return Err(FileError::NameTooLong {
            path: path.to_vec(),
            bytes: name.len(),
        });
    }
    Ok(name)
}

/// Returns the relative path of a name. Fails if [`escape`] returns no such name.
pub fn unescape(name: &[u8]) -> Result<Cow<'_, [u8]>, FileError> {
    if !is_name(name) {
        return Err(FileError::NoName(name.to_vec()));
    }
    if !name.contains(&b'%') {
        return Ok(Cow::Borrowed(name));
    }
    let path = unescaped(name).ok_or_else(|| FileError::NameOfNoPath(name.to_vec()))?;
    if path.contains(&0) || escaped(&path) != name {
        return Err(FileError::NameOfNoPath(name.to_vec()));
    }
    Ok(Cow::Owned(path))
}

fn whole_path(path: &[u8]) -> std::io::Result<Vec<u8>> {
    let (folder, last) = paths::split(path);
    if matches!(last, b"" | b"." | b"..") {
        return links::resolved(path);
    }
    Ok(paths::join(&links::resolved(folder)?, last))
}

fn is_plain(byte: u8) -> bool {
    byte.is_ascii_graphic() && byte != b'%'
}

/// Says whether visible bytes are no name for what they begin with, or are.
fn is_reserved(name: &[u8]) -> bool {
    name.first() == Some(&b'#') || matches!(name, b"-" | b"=>")
}

fn escaped(path: &[u8]) -> Vec<u8> {
    let reserved = is_reserved(path);
    path.iter()
        .enumerate()
        .flat_map(|(at, byte)| coded(*byte, reserved && at == 0))
        .collect()
}

/// Returns a byte as it is written in a name.
fn coded(byte: u8, is_forced: bool) -> Vec<u8> {
    if is_plain(byte) && !is_forced {
        return vec![byte];
    }
    let (high, low) = (usize::from(byte >> 4), usize::from(byte & 15));
    vec![b'%', DIGITS[high], DIGITS[low]]
}

/// Returns what a name stands for, or None if there are no two digits behind a `%`.
fn unescaped(name: &[u8]) -> Option<Vec<u8>> {
    let mut path = Vec::with_capacity(name.len());
    let mut rest = name;
    while let Some((byte, behind)) = rest.split_first() {
        if *byte == b'%' {
            path.push(digit(behind.first()?)? << 4 | digit(behind.get(1)?)?);
            rest = &behind[2..];
        } else {
            path.push(*byte);
            rest = behind;
        }
    }
    Some(path)
}

fn digit(byte: &u8) -> Option<u8> {
    match byte {
        b'0'..=b'9' => Some(byte - b'0'),
        b'A'..=b'F' => Some(byte - b'A' + 10),
        _ => None,
    }
}

#[cfg(test)]
mod tests {
    use super::*;
    use crate::scratch::Scratch;

    fn text(name: Result<Vec<u8>, FileError>) -> String {
        String::from_utf8(name.unwrap()).unwrap()
    }

    #[test]
    fn a_name_has_percent_for_what_no_name_may_have() {
        for (path, name) in [
            (b"a b".as_slice(), b"a%20b".as_slice()),
            (b"100%", b"100%25"),
            (b"\xff\n", b"%FF%0A"),
            (b"#x", b"%23x"),
            (b"x#", b"x#"),
            (b"-", b"%2D"),
            (b"=>", b"%3D>"),
            (b"--", b"--"),
            (b"~", b"~"),
            (b"\x7f", b"%7F"),
        ] {
            assert_eq!(escape(path).unwrap(), name);
            assert_eq!(unescape(name).unwrap(), path);
            assert!(is_name(name));
        }
    }

    #[test]
    fn a_name_that_no_path_has_is_an_error() {
        let long = vec![b'a'; 256];
        let names: [&[u8]; 14] = [
            b"//always",
            b"",
            b"-",
            b"=>",
            b"#x",
            b"a b",
            b"%",
            b"%4",
            b"%2d",
            b"%41",
            b"x%2Fy",
            b"%00",
            &long,
            b"\xff",
        ];
        for name in names {
            assert!(path_of(name, b"/tree").is_err(), "{name:?}");
        }
    }

    #[test]
    fn a_name_has_at_most_255_bytes() {
        assert_eq!(escape(&[b'a'; 255]).unwrap().len(), 255);
        assert!(escape(&[b'a'; 256]).is_err());
        assert_eq!(escape(&[b' '; 85]).unwrap().len(), 255);
        assert!(escape(&[b' '; 86]).is_err());
    }

    #[test]
    fn a_name_is_relative_to_the_top_with_links_resolved_but_the_last() {
        let scratch = Scratch::new();
        scratch.folder("real/inner");
        scratch.link("real", "link");
        scratch.link("real/inner", "file_link");
        for (path, name) in [
            ("a.c", "a.c"),
            ("real/./inner/../a.c", "real/a.c"),
            ("../beside/x", "../beside/x"),
            ("link/a.c", "real/a.c"),
            ("file_link", "file_link"),
            ("link/inner/../x", "real/x"),
            ("link/", "real"),
            ("file_link/..", "real"),
            (".", "."),
        ] {
            assert_eq!(text(name_of(&scratch.path(path), &scratch.top())), name);
        }
        assert_eq!(text(name_of(b"/usr", b"/")), "usr");
        assert_eq!(text(name_of(b"/a/x", b"/a/b")), "../x");
    }

    #[test]
    fn an_empty_path_and_one_with_nul_have_no_name() {
        assert!(matches!(name_of(b"", b"/tree"), Err(FileError::EmptyPath)));
        assert!(matches!(
            name_of(b"a\0", b"/tree"),
            Err(FileError::NulInPath(_))
        ));
    }

    #[test]
    fn redo_has_names_of_its_own() {
        for name in [ALWAYS, b"//edited/a", b"//left/a"] {
            assert!(is_internal(name) && is_name(name));
        }
        assert_eq!(edited_name(b"a"), b"//edited/a");
        assert_eq!(edited_name(&[b'a'; 246]).len(), 255);
        assert_eq!(edited_name(&[b'a'; 247]), [b'a'; 247]);
    }

    #[test]
    fn a_path_from_a_folder_is_relative_to_it() {
        assert_eq!(relative_path(b"a%20b", b"/tree", b"/tree/src"), b"../a b");
        assert_eq!(relative_path(b"%00", b"/tree", b"/tree"), b"%00");
    }
}
