//! What people see: lines, with colours on a terminal, and there how far the run is.

use std::io::{self, ErrorKind, Write};
use std::os::unix::io::RawFd;
use std::thread;
use std::time::{Duration, Instant};

use crate::system;
use crate::text::{joined, shown};

const GREEN: &[u8] = b"\x1b[32m";
const RED: &[u8] = b"\x1b[31m";
const BOLD: &[u8] = b"\x1b[1m";
const PLAIN: &[u8] = b"\x1b[m";
const TO_BEGINNING: &[u8] = b"\r\x1b[K";
const COLUMNS: usize = 80;
/// So long a line waits for a terminal that takes no more.
const MOST: Duration = Duration::from_secs(10);
const PAUSE: Duration = Duration::from_millis(1);

/// How lines are shown.
#[derive(Clone, Copy, Debug, Default, PartialEq, Eq)]
pub struct Style {
    pub has_colours: bool,
    /// There is a line behind all others that says how far the run is.
    pub shows_progress: bool,
}

/// Where lines are shown. If nobody reads them any more, they are dropped.
pub struct Terminal {
    output: Box<dyn Write>,
    style: Style,
    progress: Vec<u8>,
}

impl Style {
    /// Returns the style of an open file that is a terminal or not, if the user forbids nothing.
    /// NO_COLOR and TERM are the values of these variables.
    pub fn of(file: RawFd, no_color: Option<&[u8]>, term: Option<&[u8]>) -> Style {
        let is_terminal = is_terminal(file);
        let is_dumb = matches!(term, None | Some(b"dumb" | b""));
        Style {
            has_colours: is_terminal && !is_dumb && no_color.unwrap_or_default().is_empty(),
            shows_progress: is_terminal,
        }
    }
}

impl Terminal {
    pub fn new(output: Box<dyn Write>, style: Style) -> Terminal {
        Terminal {
            output,
            style,
            progress: Vec::new(),
        }
    }

    /// Shows standard error.
    pub fn of_errors(style: Style) -> Terminal {
        Terminal::new(Box::new(io::stderr()), style)
    }

    /// Shows a line.
    pub fn line(&mut self, text: &[u8]) {
        let back: &[u8] = if self.progress.is_empty() {
            b""
        } else {
            TO_BEGINNING
        };
        let line = joined(&[back, text, b"\n", &self.progress]);
        self.write(&line);
    }

    /// Shows the line of a build, so deep below the user's request.
    pub fn begun(&mut self, path: &[u8], depth: usize) {
        self.target(path, depth, BOLD);
    }

    /// Shows the line of a target that was up to date.
    pub fn unchanged(&mut self, path: &[u8], depth: usize) {
        self.target(&joined(&[path, b" (unchanged)"]), depth, b"");
    }

    fn target(&mut self, path: &[u8], depth: usize, weight: &[u8]) {
        let (indent, path) = (b"  ".repeat(depth), shown(path));
        if self.style.has_colours {
            self.line(&joined(&[GREEN, b"redo  ", &indent, weight, &path, PLAIN]));
        } else {
            self.line(&joined(&[b"redo  ", &indent, &path]));
        }
    }

    /// Shows a line of redo's own: an error, or a warning.
    pub fn message(&mut self, text: &[u8]) {
        if self.style.has_colours {
            self.line(&joined(&[RED, text, PLAIN]));
        } else {
            self.line(text);
        }
    }

    /// Shows a line of a log.
    pub fn text(&mut self, line: &[u8]) {
        if line.starts_with(b"redo: ") {
            self.message(line);
        } else {
            self.line(line);
        }
    }

    /// Shows how far the run is; an empty text takes that away.
    pub fn progress(&mut self, text: &[u8]) {
        if self.style.shows_progress && text != self.progress {
            self.write(&joined(&[TO_BEGINNING, text]));
            self.progress = text.to_vec();
        }
    }

    /// Writes all of a text, also to a terminal that somebody has set not to wait.
    fn write(&mut self, text: &[u8]) {
        let (mut rest, began) = (text, Instant::now());
        while !rest.is_empty() {
            match self.output.write(rest) {
                Ok(0) => return,
                Ok(count) => rest = &rest[count..],
                Err(cause) if cause.kind() == ErrorKind::Interrupted => {}
                Err(cause) if cause.kind() == ErrorKind::WouldBlock && began.elapsed() < MOST => {
                    thread::sleep(PAUSE);
                }
                Err(_) => return,
            }
        }
        let _ = self.output.flush(); // as above: nobody reads it any more
    }
}

/// How far a run is.
#[derive(Clone, Debug, Default, PartialEq, Eq)]
pub struct Progress<'a> {
    pub done: usize,
    /// The targets whose scripts run.
    pub running: Vec<&'a [u8]>,
    pub left: usize,
}

impl Progress<'_> {
    /// Returns one line for a terminal of so many columns, with as many names as it has room for.
    pub fn text(&self, columns: usize) -> Vec<u8> {
        let (done, running, left) = (self.done, self.running.len(), self.left);
        let counts = format!("redo: {done} done, {running} running, {left} left");
        let mut text = counts.into_bytes();
        let mut names = self.running.iter().map(|name| shown(name)).peekable();
        let mut between: &[u8] = b": ";
        while let Some(name) = names.next_if(|name| width(&text) + 2 + width(name) < columns) {
            text = joined(&[&text, between, &name]);
            between = b" ";
        }
        if names.peek().is_some() && width(&text) + 4 < columns {
            text.extend_from_slice(b" ..");
        }
        text
    }
}

/// Says whether an open file is a terminal.
pub fn is_terminal(file: RawFd) -> bool {
    system::window(file).is_some()
}

/// Returns how many columns a terminal has, or 80 if that isn't known.
pub fn columns(file: RawFd) -> usize {
    let columns = system::window(file).map_or(0, |size| usize::from(size.ws_col));
    if columns > 0 {
        columns
    } else {
        COLUMNS
    }
}

/// Returns a line without its colours, as for a file.
pub fn without_colours(line: &[u8]) -> Vec<u8> {
    let mut kept = Vec::with_capacity(line.len());
    let mut rest = line;
    while let Some(place) = rest.windows(2).position(|part| part == b"\x1b[") {
        kept.extend_from_slice(&rest[..place]);
        let told = &rest[place + 2..];
        let end = told
            .iter()
            .position(|byte| !byte.is_ascii_digit() && *byte != b';');
        let is_style = end.map_or(false, |end| matches!(told[end], b'm' | b'K'));
        let skipped = end.filter(|_| is_style).map_or(0, |end| end + 1);
        if skipped == 0 {
            kept.extend_from_slice(b"\x1b[");
        }
        rest = &told[skipped..];
    }
    kept.extend_from_slice(rest);
    kept
}

/// Returns how many columns a text takes, where each character takes one.
fn width(text: &[u8]) -> usize {
    text.iter().filter(|byte| **byte & 0xc0 != 0x80).count()
}

#[cfg(test)]
mod tests {
    use super::*;
    use crate::scratch::Shown;

    fn shown_by(style: Style, show: impl FnOnce(&mut Terminal)) -> String {
        let shown = Shown::default();
        show(&mut Terminal::new(Box::new(shown.clone()), style));
        shown.text()
    }

    const COLOURS: Style = Style {
        has_colours: true,
        shows_progress: false,
    };

    #[test]
    fn a_build_is_indented_by_its_depth() {
        let show = |terminal: &mut Terminal| terminal.begun(b"d/x\n", 2);
        assert_eq!(shown_by(Style::default(), show), "redo      d/x\\x0A\n");
        assert_eq!(
            shown_by(COLOURS, show),
            "\x1b[32mredo      \x1b[1md/x\\x0A\x1b[m\n"
        );
    }

    #[test]
    fn only_lines_of_redo_are_coloured() {
        let show = |terminal: &mut Terminal| {
            terminal.text(b"redo: x: status 1");
            terminal.text(b"redone: text");
        };
        assert_eq!(
            shown_by(Style::default(), show),
            "redo: x: status 1\nredone: text\n"
        );
        assert_eq!(
            shown_by(COLOURS, show),
            "\x1b[31mredo: x: status 1\x1b[m\nredone: text\n"
        );
    }

    /// Takes three bytes at a time, and none at every other time.
    struct Narrow {
        shown: Shown,
        is_full: bool,
    }

    impl Write for Narrow {
        fn write(&mut self, text: &[u8]) -> io::Result<usize> {
            self.is_full = !self.is_full;
            if self.is_full {
                return Err(io::Error::from(ErrorKind::WouldBlock));
            }
            self.shown.write(&text[..text.len().min(3)])
        }

        fn flush(&mut self) -> io::Result<()> {
            Ok(())
        }
    }

    #[test]
    fn a_line_is_shown_whole_by_a_terminal_that_does_not_wait() {
        let shown = Shown::default();
        let narrow = Narrow {
            shown: shown.clone(),
            is_full: false,
        };
        Terminal::new(Box::new(narrow), Style::default()).line(b"one two three");
        assert_eq!(shown.text(), "one two three\n");
    }

    #[test]
    fn progress_is_behind_all_lines_and_goes_away() {
        let style = Style {
            shows_progress: true,
            ..Style::default()
        };
        let show = |terminal: &mut Terminal| {
            terminal.progress(b"1 done");
            terminal.progress(b"1 done");
            terminal.line(b"text");
            terminal.progress(b"");
            terminal.line(b"end");
        };
        let wanted = "\r\x1b[K1 done\r\x1b[Ktext\n1 done\r\x1b[Kend\n";
        assert_eq!(shown_by(style, show), wanted);
        assert_eq!(shown_by(Style::default(), show), "text\nend\n");
    }

    #[test]
    fn progress_names_what_runs_as_far_as_there_is_room() {
        let progress = Progress {
            done: 1,
            running: vec![b"all", "bäume".as_bytes(), b"c"],
            left: 4,
        };
        let text = |columns| String::from_utf8(progress.text(columns)).unwrap();
        assert_eq!(text(80), "redo: 1 done, 3 running, 4 left: all bäume c");
        assert_eq!(text(43), "redo: 1 done, 3 running, 4 left: all ..");
        assert_eq!(text(10), "redo: 1 done, 3 running, 4 left");
        let wanted = "redo: 0 done, 0 running, 0 left";
        assert_eq!(Progress::default().text(80), wanted.as_bytes());
    }

    #[test]
    fn colours_are_for_a_terminal_alone() {
        let file = std::fs::File::open("/dev/null").unwrap();
        let number = std::os::unix::io::AsRawFd::as_raw_fd(&file);
        assert_eq!(Style::of(number, None, Some(b"xterm")), Style::default());
    }

    #[test]
    fn a_line_is_freed_of_colours_alone() {
        let line = b"\x1b[01m\x1b[Kx.c:1:\x1b[m\x1b[K \x1b[01;31merror\x1b[m \x1b[2J \x1b";
        assert_eq!(without_colours(line), b"x.c:1: error \x1b[2J \x1b");
        assert_eq!(without_colours(b"plain \x1b[12"), b"plain \x1b[12");
    }
}
