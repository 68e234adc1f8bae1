//! Paths as text: no function here asks the file system.

/// Says whether a path begins at the root.
pub fn is_absolute(path: &[u8]) -> bool {
    path.first() == Some(&b'/')
}

/// Returns a path from a folder; it is the path itself, if that is absolute.
pub fn join(folder: &[u8], path: &[u8]) -> Vec<u8> {
    if is_absolute(path) || folder.is_empty() {
        return path.to_vec();
    }
    let slash: &[u8] = if folder.last() == Some(&b'/') {
        b""
    } else {
        b"/"
    };
    [folder, slash, path].concat()
}

/// Returns the folder of a path and its last part, which is empty if the path ends with `/`.
pub fn split(path: &[u8]) -> (&[u8], &[u8]) {
    let end = path
        .iter()
        .rposition(|byte| *byte == b'/')
        .map_or(0, |at| at + 1);
    let (folder, last) = path.split_at(end);
    let kept = folder
        .iter()
        .rposition(|byte| *byte != b'/')
        .map_or(folder.len(), |at| at + 1);
    (&folder[..kept], last)
}

/// Returns the folder of a path.
pub fn parent(path: &[u8]) -> &[u8] {
    split(path).0
}

/// Returns the last part of a path, which is empty if the path ends with `/`.
pub fn last(path: &[u8]) -> &[u8] {
    split(path).1
}

/// Returns the parts of a path between its slashes, but for `.` and empty ones.
pub fn parts(path: &[u8]) -> impl Iterator<Item = &[u8]> {
    path.split(|byte| *byte == b'/')
        .filter(|part| !part.is_empty() && *part != b".")
}

/// Returns an absolute path without `.` and `..`, as if no part of it were a symbolic link.
pub fn normalized(path: &[u8]) -> Vec<u8> {
    let mut kept: Vec<&[u8]> = Vec::new();
    for part in parts(path) {
        if part == b".." {
            kept.pop();
        } else {
            kept.push(part);
        }
    }
    [b"/".as_slice(), &kept.join(&b'/')].concat()
}

/// Returns the way from a folder to a path, `.` if that is the folder. Both are absolute.
pub fn relative(path: &[u8], folder: &[u8]) -> Vec<u8> {
    let (path, folder) = (normalized(path), normalized(folder));
    let (to, from): (Vec<_>, Vec<_>) = (parts(&path).collect(), parts(&folder).collect());
    let common = to
        .iter()
        .zip(&from)
        .take_while(|(one, other)| one == other)
        .count();
    let up = std::iter::repeat(b"..".as_slice()).take(from.len() - common);
    let way: Vec<&[u8]> = up.chain(to[common..].iter().copied()).collect();
    if way.is_empty() {
        b".".to_vec()
    } else {
        way.join(&b'/')
    }
}

/// Says whether a path is in a folder, or below it. Both are absolute and normalized.
pub fn is_below(path: &[u8], folder: &[u8]) -> bool {
    inside(path, folder).is_some()
}

/// Returns the part of a path that is behind a folder and its slash, if the path is below it.
pub fn inside<'a>(path: &'a [u8], folder: &[u8]) -> Option<&'a [u8]> {
    let folder = folder.strip_suffix(b"/").unwrap_or(folder);
    path.strip_prefix(folder)?
        .strip_prefix(b"/")
        .filter(|rest| !rest.is_empty())
}

/// Returns a path as it is printed: control characters are written `\xNN`.
pub fn shown(path: &[u8]) -> Vec<u8> {
    path.iter().flat_map(|byte| shown_byte(*byte)).collect()
}

fn shown_byte(byte: u8) -> Vec<u8> {
    if byte.is_ascii_control() {
        format!("\\x{byte:02X}").into_bytes()
    } else {
        vec![byte]
    }
}

#[cfg(test)]
mod tests {
    use super::*;

    #[test]
    fn join_takes_an_absolute_path_as_it_is() {
        assert_eq!(join(b"/a", b"b"), b"/a/b");
        assert_eq!(join(b"/", b"b"), b"/b");
        assert_eq!(join(b"", b"b"), b"b");
        assert_eq!(join(b"/a", b"/b"), b"/b");
    }

    #[test]
    fn split_parts_at_the_last_slash() {
        assert_eq!(split(b"/a/b"), (b"/a".as_slice(), b"b".as_slice()));
        assert_eq!(split(b"/a"), (b"/".as_slice(), b"a".as_slice()));
        assert_eq!(split(b"a"), (b"".as_slice(), b"a".as_slice()));
        assert_eq!(split(b"a//"), (b"a".as_slice(), b"".as_slice()));
        assert_eq!(split(b"//a"), (b"//".as_slice(), b"a".as_slice()));
    }

    #[test]
    fn normalized_goes_no_higher_than_the_root() {
        assert_eq!(normalized(b"/a/./b//../c"), b"/a/c");
        assert_eq!(normalized(b"/../.."), b"/");
    }

    #[test]
    fn relative_leads_up_and_down() {
        assert_eq!(relative(b"/a/b", b"/a"), b"b");
        assert_eq!(relative(b"/a/b", b"/a/c/d"), b"../../b");
        assert_eq!(relative(b"/a", b"/a"), b".");
        assert_eq!(relative(b"/a", b"/"), b"a");
        assert_eq!(relative(b"/ab", b"/a"), b"../ab");
    }

    #[test]
    fn inside_is_what_stands_behind_the_folder() {
        assert_eq!(inside(b"/a/b/c", b"/a"), Some(b"b/c".as_slice()));
        assert_eq!(inside(b"/a", b"/"), Some(b"a".as_slice()));
        assert_eq!(inside(b"/", b"/"), None);
        assert_eq!(inside(b"/a", b"/a"), None);
        assert_eq!(inside(b"/ab", b"/a"), None);
    }

    #[test]
    fn shown_has_no_control_character() {
        assert_eq!(shown(b"a\n\x7f\xff b"), b"a\\x0A\\x7F\xff b");
    }
}
