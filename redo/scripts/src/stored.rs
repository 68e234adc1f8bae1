//! Shows stored logs, as redo-log does.

use std::collections::HashSet;

use redo_files::error::FileError;
use redo_files::names::relative_path;
use redo_files::private::Home;

use crate::journal;
use crate::lines::{is_redos, Line, Lines};
use crate::log::{self, Mark};
use crate::terminal::{without_colours, Terminal};

/// What is shown of stored logs.
#[derive(Clone, Copy, Debug, PartialEq, Eq)]
pub struct LogOptions {
    /// The logs of the builds that a target asked for are shown as well.
    pub recurses: bool,
    /// So are the targets that it needs and that weren't built for it.
    pub shows_unchanged: bool,
    /// So is what scripts wrote; else the lines of redo alone.
    pub shows_details: bool,
    /// A log that grows is shown until its build ends.
    pub follows: bool,
    /// Lines keep the colours that compilers gave them.
    pub has_colours: bool,
}

/// Whether there is more to show later.
#[derive(Clone, Copy, Debug, PartialEq, Eq)]
pub enum More {
    No,
    /// A log grows.
    Later,
}

/// Shows stored logs, each once.
pub struct StoredLogs<'a> {
    terminal: Terminal,
    home: &'a Home,
    /// The folder from which paths are shown.
    here: Vec<u8>,
    options: LogOptions,
    shown: HashSet<Vec<u8>>,
    stack: Vec<Open>,
    needs: Needs<'a>,
}

/// Returns the names of the targets that a target needs.
pub type Needs<'a> = Box<dyn FnMut(&[u8]) -> Vec<Vec<u8>> + 'a>;

/// A log that is shown.
struct Open {
    name: Vec<u8>,
    lines: Lines,
    has_ended: bool,
}

impl<'a> StoredLogs<'a> {
    pub fn new(
        terminal: Terminal,
        home: &'a Home,
        here: &[u8],
        options: LogOptions,
    ) -> StoredLogs<'a> {
        StoredLogs {
            terminal,
            home,
            here: here.to_vec(),
            options,
            shown: HashSet::new(),
            stack: Vec::new(),
            needs: Box::new(|_| Vec::new()),
        }
    }

    /// Has what a target needs come from here, as of its last build.
    pub fn set_needs(&mut self, needs: Needs<'a>) {
        self.needs = needs;
    }

    /// Begins to show the log of a name, and says whether there is one.
    pub fn begin(&mut self, name: &[u8]) -> Result<bool, FileError> {
        let is_kept = log::is_kept(self.home, name)?;
        if is_kept {
            self.descend(name);
        }
        Ok(is_kept)
    }

    /// Shows all that there is by now.
    pub fn pump(&mut self) -> More {
        while let Some(top) = self.stack.last_mut() {
            let follows = self.options.follows && !top.has_ended;
            let grows = follows && journal::is_built_now(self.home, &top.name);
            match top.lines.next(grows).unwrap_or(None) {
                Some(line) => self.show(line),
                None if grows => return More::Later,
                None => self.leave(),
            }
        }
        More::No
    }

    fn leave(&mut self) {
        let depth = self.stack.len();
        let top = self.stack.pop();
        if let (Some(top), true) = (top, self.options.shows_unchanged) {
            for name in (self.needs)(&top.name) {
                self.show_unchanged(&name, depth);
            }
        }
    }

    fn show_unchanged(&mut self, name: &[u8], depth: usize) {
        if self.shown.insert(name.to_vec()) {
            let path = relative_path(name, self.home.top(), &self.here);
            self.terminal.unchanged(&path, depth);
        }
    }

    fn show(&mut self, line: Line) {
        match line {
            Line::Text(text) if !self.options.shows_details && !is_redos(&text) => {}
            Line::Text(text) if self.options.has_colours => self.terminal.text(&text),
            Line::Text(text) => self.terminal.text(&without_colours(&text)),
            Line::Mark(Mark::Built(name)) if self.options.recurses => self.descend(&name),
            Line::Mark(Mark::Unchanged(name)) if self.options.shows_unchanged => {
                self.show_unchanged(&name, self.stack.len());
            }
            Line::Mark(Mark::End) => {
                let top = self.stack.last_mut();
                top.into_iter().for_each(|top| top.has_ended = true);
            }
            Line::Mark(_) => {}
        }
    }

    fn descend(&mut self, name: &[u8]) {
        if !self.shown.insert(name.to_vec()) {
            return;
        }
        let path = relative_path(name, self.home.top(), &self.here);
        self.terminal.begun(&path, self.stack.len());
        let lines = Lines::open(self.home, name, None).ok();
        self.stack.extend(lines.map(|lines| Open {
            name: name.to_vec(),
            lines,
            has_ended: false,
        }));
    }
}

#[cfg(test)]
mod tests {
    use super::*;
    use crate::journal::Journal;
    use crate::log::{Keys, Log};
    use crate::scratch::{Scratch, Shown};
    use crate::terminal::Style;
    use redo_files::trust::Trust;

    const ALL: LogOptions = LogOptions {
        recurses: true,
        shows_unchanged: false,
        shows_details: true,
        follows: false,
        has_colours: false,
    };

    /// A tree with the logs of `all`, `a` that it asked for twice, and `c` that `a` asked for.
    struct Tree {
        scratch: Scratch,
        home: Home,
    }

    impl Tree {
        fn new() -> Tree {
            let scratch = Scratch::new();
            let home = Home::new(&scratch.top(), &Trust::of_process());
            home.make().unwrap();
            let tree = Tree { scratch, home };
            let mut keys = Keys::default();
            let mut all = tree.log(b"all", &mut keys);
            all.write(b"all begins\n");
            all.built(b"a");
            all.unchanged([b"d/u".as_slice(), b"a"]);
            all.built(b"a");
            all.write(b"\x1b[31mall ends\x1b[m\n");
            all.end(0, None);
            let mut a = tree.log(b"a", &mut keys);
            a.built(b"c");
            a.say(b"redo: a: status 1");
            a.end(1, None);
            tree.log(b"c", &mut keys).end(0, None);
            tree
        }

        fn log(&self, name: &[u8], keys: &mut Keys) -> Log {
            Log::begin(&self.home, name, None, keys).unwrap()
        }

        fn shown(&self, options: LogOptions, names: &[&str]) -> String {
            let shown = Shown::default();
            let terminal = Terminal::new(Box::new(shown.clone()), Style::default());
            let mut logs = StoredLogs::new(terminal, &self.home, &self.scratch.top(), options);
            for name in names {
                assert!(logs.begin(name.as_bytes()).unwrap());
                assert_eq!(logs.pump(), More::No);
            }
            shown.text()
        }
    }

    #[test]
    fn logs_are_shown_where_their_builds_were_asked_for() {
        let wanted = "redo  all\nall begins\nredo    a\nredo      c\nredo: a: status 1\nall ends\n";
        assert_eq!(Tree::new().shown(ALL, &["all", "c"]), wanted);
    }

    #[test]
    fn a_log_alone_has_no_others_in_it() {
        let options = LogOptions {
            recurses: false,
            ..ALL
        };
        let wanted = "redo  all\nall begins\nall ends\n";
        assert_eq!(Tree::new().shown(options, &["all"]), wanted);
    }

    #[test]
    fn names_that_were_up_to_date_are_shown_once_with_their_option() {
        let options = LogOptions {
            shows_unchanged: true,
            has_colours: true,
            ..ALL
        };
        let wanted = "redo  all\nall begins\nredo    a\nredo      c\nredo: a: status 1\n\
                      redo    d/u (unchanged)\n\x1b[31mall ends\x1b[m\n";
        assert_eq!(Tree::new().shown(options, &["all"]), wanted);
    }

    #[test]
    fn what_a_target_needs_is_unchanged_if_it_was_not_built_for_it() {
        let (tree, shown) = (Tree::new(), Shown::default());
        let terminal = Terminal::new(Box::new(shown.clone()), Style::default());
        let options = LogOptions {
            shows_unchanged: true,
            ..ALL
        };
        let mut logs = StoredLogs::new(terminal, &tree.home, &tree.scratch.top(), options);
        logs.set_needs(Box::new(|name| match name {
            b"a" => vec![b"c".to_vec(), b"d/v".to_vec(), b"all".to_vec()],
            _ => Vec::new(),
        }));
        assert!(logs.begin(b"a").unwrap());
        assert_eq!(logs.pump(), More::No);
        drop(logs);
        let wanted = "redo  a\nredo    c\nredo: a: status 1\nredo    d/v (unchanged)\n\
                      redo    all (unchanged)\n";
        assert_eq!(shown.text(), wanted);
    }

    #[test]
    fn lines_of_redo_are_shown_without_details() {
        let options = LogOptions {
            shows_details: false,
            ..ALL
        };
        let wanted = "redo  all\nredo    a\nredo      c\nredo: a: status 1\n";
        assert_eq!(Tree::new().shown(options, &["all"]), wanted);
    }

    #[test]
    fn a_name_without_a_log_is_none() {
        let tree = Tree::new();
        let terminal = Terminal::new(Box::new(Shown::default()), Style::default());
        let mut logs = StoredLogs::new(terminal, &tree.home, b"/", ALL);
        assert!(!logs.begin(b"nothing").unwrap());
    }

    #[test]
    fn a_log_is_followed_until_its_build_ends() {
        let tree = Tree::new();
        let mut log = tree.log(b"x", &mut Keys::default());
        let mut journal = Journal::take(&tree.home).unwrap();
        journal.begun(b"x", 1);
        let shown = Shown::default();
        let terminal = Terminal::new(Box::new(shown.clone()), Style::default());
        let options = LogOptions {
            follows: true,
            ..ALL
        };
        let mut logs = StoredLogs::new(terminal, &tree.home, &tree.scratch.top(), options);
        log.write(b"one\npart");
        assert!(logs.begin(b"x").unwrap());
        assert_eq!(
            (logs.pump(), shown.text().as_str()),
            (More::Later, "redo  x\none\n")
        );
        log.write(b" two\n");
        assert_eq!(logs.pump(), More::Later);
        assert_eq!(shown.text(), "redo  x\none\npart two\n");
        log.write(b"three");
        log.end(0, None);
        assert_eq!(logs.pump(), More::No);
        assert_eq!(shown.text(), "redo  x\none\npart two\nthree\n");
    }

    #[test]
    fn a_log_whose_run_was_killed_is_not_waited_for() {
        let tree = Tree::new();
        tree.log(b"x", &mut Keys::default()).write(b"one\n");
        let options = LogOptions {
            follows: true,
            ..ALL
        };
        assert_eq!(tree.shown(options, &["x"]), "redo  x\none\n");
    }
}
