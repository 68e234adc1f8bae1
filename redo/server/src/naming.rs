//! The names of the paths of one call, in which each folder is resolved once.

use std::collections::HashMap;

use redo_files::links::{links_on, resolved};
use redo_files::names::{escape, name_of};
use redo_files::{paths, FileError};

/// The folders of paths, each without the symbolic links on the way.
#[derive(Debug)]
pub struct Naming<'a> {
    top: &'a [u8],
    folders: HashMap<Vec<u8>, Vec<u8>>,
}

impl<'a> Naming<'a> {
    /// No folder was resolved yet. `top` is the top of the tree, absolute and without links.
    pub fn new(top: &'a [u8]) -> Naming<'a> {
        Naming {
            top,
            folders: HashMap::new(),
        }
    }

    /// Returns the name of an absolute path, as [`name_of`]. Fails as that.
    pub fn name(&mut self, path: &[u8]) -> Result<Vec<u8>, FileError> {
        let (folder, last) = paths::split(path);
        if matches!(last, b"" | b"." | b"..") || path.contains(&0) {
            return name_of(path, self.top);
        }
        let whole = paths::join(self.resolved(folder)?, last);
        name_of_resolved(&whole, self.top)
    }

    /// Returns the symbolic links on the way to an absolute path, as [`links_on`].
    pub fn links(&mut self, path: &[u8]) -> Result<Vec<Vec<u8>>, FileError> {
        let folder = paths::parent(path);
        if self.resolved(folder)? == paths::normalized(folder) {
            return Ok(Vec::new());
        }
        links_on(path).map_err(|cause| FileError::system(path, cause))
    }

    fn resolved(&mut self, folder: &[u8]) -> Result<&[u8], FileError> {
        if !self.folders.contains_key(folder) {
            let found = resolved(folder).map_err(|cause| FileError::system(folder, cause))?;
            self.folders.insert(folder.to_vec(), found);
        }
        Ok(&self.folders[folder])
    }
}

/// Returns the name of an absolute path on whose way no symbolic link is.
pub fn name_of_resolved(path: &[u8], top: &[u8]) -> Result<Vec<u8>, FileError> {
    let name = match paths::inside(path, top) {
        Some(inside) => escape(inside)?.into_owned(),
        None => escape(&paths::relative(path, top))?.into_owned(),
    };
    Ok(name)
}

#[cfg(test)]
mod tests {
    use super::*;
    use crate::scratch::Tree;
    use std::os::unix::ffi::OsStrExt;
    use std::os::unix::fs::symlink;

    #[test]
    fn names_are_those_of_the_files() {
        let tree = Tree::new();
        std::fs::create_dir_all(tree.at("real/inner")).unwrap();
        symlink("real", tree.at("link")).unwrap();
        let top = tree.home.top();
        let mut naming = Naming::new(top);
        for path in [
            "x",
            "link/x",
            "link/inner/../x",
            "link/",
            "none/y",
            ".",
            "../z",
            "a b",
        ] {
            let path = tree.at("").join(path);
            let path = path.as_os_str().as_bytes();
            let wanted = name_of(path, top).unwrap();
            assert_eq!(naming.name(path).unwrap(), wanted);
            assert_eq!(naming.links(path).unwrap(), links_on(path).unwrap());
        }
        let nul = [top, b"/a\0"].concat();
        assert!(matches!(naming.name(&nul), Err(FileError::NulInPath(_))));
        let long = [top, b"/", [b'x'; 256].as_slice()].concat();
        assert!(naming.name(&long).is_err());
    }
}
