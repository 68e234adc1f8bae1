//! Symbolic links on the way to a file.

use std::collections::HashMap;
use std::io;
use std::os::unix::ffi::OsStringExt;

use crate::paths;
use crate::system;

const MOST_LINKS: usize = 40;

/// Returns a path that is absolute and without symbolic links.
///
/// What isn't there is taken as it stands. In a ring of links the path ends at the link that leads
/// back, with the rest of it behind. Fails if the path is relative and there is no working folder.
pub fn resolved(path: &[u8]) -> io::Result<Vec<u8>> {
    let start = if paths::is_absolute(path) {
        b"/".to_vec()
    } else {
        std::env::current_dir()?.into_os_string().into_vec()
    };
    let mut walk = Resolving {
        here: start,
        ahead: Vec::new(),
        met: HashMap::new(),
    };
    walk.put_ahead(path);
    while let Some(step) = walk.ahead.pop() {
        walk.take(step);
    }
    Ok(walk.here)
}

/// Returns the symbolic links that the folders of an absolute path lead through, the first 40 of
/// them. There are none if the path without `.` and `..` is the resolved one. Fails as
/// [`resolved`].
pub fn links_on(path: &[u8]) -> io::Result<Vec<Vec<u8>>> {
    let folder = paths::parent(path);
    let mut found = Vec::new();
    if resolved(folder)? == paths::normalized(folder) {
        return Ok(found);
    }
    let mut here = b"/".to_vec();
    let mut ahead = reversed_parts(folder);
    while let Some(part) = ahead.pop() {
        let next = paths::normalized(&paths::join(&here, &part));
        match text_of_link(&part, &next) {
            None => here = next,
            Some(text) => {
                found.push(next);
                if found.len() == MOST_LINKS {
                    break;
                }
                if paths::is_absolute(&text) {
                    here = b"/".to_vec();
                }
                ahead.extend(reversed_parts(&text));
            }
        }
    }
    Ok(found)
}

/// Returns the text of what is at a path with this last part, if it is a link.
fn text_of_link(part: &[u8], path: &[u8]) -> Option<Vec<u8>> {
    if part == b".." {
        return None;
    }
    system::read_link(path).ok()
}

fn reversed_parts(path: &[u8]) -> Vec<Vec<u8>> {
    let mut parts: Vec<Vec<u8>> = paths::parts(path).map(<[u8]>::to_vec).collect();
    parts.reverse();
    parts
}

/// What is to be done next on the way.
enum Step {
    /// A part of the path, or of a link's text.
    Part(Vec<u8>),
    /// The text of this link is done.
    EndOfLink(Vec<u8>),
}

/// What is known of a link that was met on the way.
enum Met {
    /// The way is in its text.
    Within,
    /// It leads to this path.
    LeadsTo(Vec<u8>),
}

struct Resolving {
    here: Vec<u8>,
    ahead: Vec<Step>,
    met: HashMap<Vec<u8>, Met>,
}

impl Resolving {
    fn put_ahead(&mut self, path: &[u8]) {
        self.ahead
            .extend(reversed_parts(path).into_iter().map(Step::Part));
    }

    fn take(&mut self, step: Step) {
        match step {
            Step::Part(part) if part == b".." => self.here = paths::parent(&self.here).to_vec(),
            Step::Part(part) => self.enter(paths::join(&self.here, &part)),
            Step::EndOfLink(link) => {
                self.met.insert(link, Met::LeadsTo(self.here.clone()));
            }
        }
    }

    fn enter(&mut self, next: Vec<u8>) {
        match self.met.get(&next) {
            Some(Met::LeadsTo(path)) => self.here = path.clone(),
            Some(Met::Within) => self.stop_at(next),
            None => match system::read_link(&next) {
                Ok(text) => self.enter_link(next, &text),
                Err(_) => self.here = next,
            },
        }
    }

    fn enter_link(&mut self, link: Vec<u8>, text: &[u8]) {
        if paths::is_absolute(text) {
            self.here = b"/".to_vec();
        }
        self.met.insert(link.clone(), Met::Within);
        self.ahead.push(Step::EndOfLink(link));
        self.put_ahead(text);
    }

    /// Ends at a link that leads back to itself, with the rest of the path as it stands.
    fn stop_at(&mut self, link: Vec<u8>) {
        let rest = self.ahead.drain(..).rev().filter_map(|step| match step {
            Step::Part(part) => Some(part),
            Step::EndOfLink(_) => None,
        });
        let path = rest.fold(link, |path, part| paths::join(&path, &part));
        self.here = paths::normalized(&path);
    }
}

#[cfg(test)]
mod tests {
    use super::*;
    use crate::scratch::Scratch;

    #[test]
    fn a_path_is_resolved_through_links() {
        let scratch = Scratch::new();
        scratch.folder("v1/inner");
        scratch.link("v1", "current");
        scratch.link("current/inner", "in");
        assert_eq!(
            resolved(&scratch.path("in/x")).unwrap(),
            scratch.path("v1/inner/x")
        );
        assert_eq!(
            resolved(&scratch.path("in/../x")).unwrap(),
            scratch.path("v1/x")
        );
        assert_eq!(
            resolved(&scratch.path("none/./x")).unwrap(),
            scratch.path("none/x")
        );
    }

    #[test]
    fn a_ring_of_links_ends() {
        let scratch = Scratch::new();
        scratch.link("b", "a");
        scratch.link("a", "b");
        assert_eq!(
            resolved(&scratch.path("a/x/../y")).unwrap(),
            scratch.path("a/y")
        );
    }

    #[test]
    fn a_chain_of_links_needs_no_deep_stack() {
        let scratch = Scratch::new();
        scratch.folder("link0");
        for number in 1..5000 {
            scratch.link(&format!("link{}", number - 1), &format!("link{number}"));
        }
        assert_eq!(
            resolved(&scratch.path("link4999/x")).unwrap(),
            scratch.path("link0/x")
        );
    }

    #[test]
    fn links_on_the_way_are_told_in_their_order() {
        let scratch = Scratch::new();
        scratch.folder("v1/inner");
        scratch.link("v1", "current");
        scratch.link("current/inner", "in");
        scratch.link("nowhere", "v1/file_link");
        let links = |path: &str| links_on(&scratch.path(path)).unwrap();
        assert_eq!(links("in/x"), [scratch.path("in"), scratch.path("current")]);
        assert_eq!(
            links("current/../current/x"),
            [scratch.path("current"), scratch.path("current")]
        );
        assert!(links("v1/file_link").is_empty());
        assert!(links("v1/x").is_empty());
    }

    #[test]
    fn no_more_than_forty_links_are_told() {
        let scratch = Scratch::new();
        scratch.folder("0");
        for number in 1..=50 {
            scratch.link(&format!("{}", number - 1), &format!("{number}"));
        }
        let links = |path: &str| links_on(&scratch.path(path)).unwrap();
        assert_eq!(links("3/a"), ["3", "2", "1"].map(|link| scratch.path(link)));
        assert_eq!(links("50/a").len(), 40);
        scratch.link("ring", "ring");
        assert!(links("ring/a").is_empty());
    }
}
