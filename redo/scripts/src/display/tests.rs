use super::*;
use crate::ending::Failure;
use crate::program::Exit;
use crate::scratch::{Scratch, Shown};
use crate::terminal::Style;
use redo_files::trust::Trust;
use std::fs::File;
use std::io::Write;

pub(super) struct Run {
    _scratch: Scratch,
    pub(super) shown: Shown,
    pub(super) display: Display,
}

impl Run {
    pub(super) fn new(errors: Errors) -> Run {
        let scratch = Scratch::new();
        let home = Home::new(&scratch.top(), &Trust::of_process());
        home.make().unwrap();
        let shown = Shown::default();
        let terminal = Terminal::new(Box::new(shown.clone()), Style::default());
        let display = Display::new(terminal, &home, errors);
        Run {
            _scratch: scratch,
            shown,
            display,
        }
    }

    pub(super) fn begin(&mut self, name: &str, asker: Option<BuildId>) -> BuildId {
        let begun = Begun {
            name: name.as_bytes(),
            path: name.as_bytes(),
            asker,
            stamp: None,
            built_before: &[],
        };
        let id = self.display.begin(&begun).unwrap();
        self.display.started(id);
        id
    }

    /// Has the script of a build write to its standard error.
    pub(super) fn writes(&mut self, id: BuildId, text: &str) {
        let file = crate::system::duplicate(self.display.errors_of(id)).unwrap();
        File::from(file).write_all(text.as_bytes()).unwrap();
        self.display.pump();
    }

    pub(super) fn ends(&mut self, id: BuildId) {
        self.display.end(id, &[], None);
    }

    pub(super) fn fails(&mut self, id: BuildId) {
        self.display
            .fail(id, &Failure::Script(Exit::Status(3)), None);
    }
}

#[test]
fn builds_are_shown_in_the_order_of_requests() {
    let mut run = Run::new(Errors::Logs);
    let all = run.begin("all", None);
    run.writes(all, "all begins\n");
    let a = run.begin("a", Some(all));
    let b = run.begin("b", Some(all));
    run.writes(b, "b\n");
    run.ends(b);
    run.writes(a, "a begins\n");
    let c = run.begin("c", Some(a));
    run.writes(c, "c\n");
    run.ends(c);
    run.writes(a, "a ends\n");
    assert_eq!(run.shown.text().lines().last(), Some("a ends"));
    run.ends(a);
    run.writes(all, "all ends\n");
    run.ends(all);
    let wanted = "redo  all\nall begins\nredo    a\na begins\nredo      c\nc\na ends\nredo    b\n\
                  b\nall ends\n";
    assert_eq!(run.shown.text(), wanted);
}

#[test]
fn builds_of_users_follow_one_another() {
    let mut run = Run::new(Errors::Logs);
    let (x, y) = (run.begin("x", None), run.begin("y", None));
    run.writes(y, "y\n");
    run.ends(y);
    assert_eq!(run.shown.text(), "redo  x\n");
    run.ends(x);
    assert_eq!(run.shown.text(), "redo  x\nredo  y\ny\n");
}

#[test]
fn an_error_is_shown_at_once_and_only_once() {
    let mut run = Run::new(Errors::Logs);
    let all = run.begin("all", None);
    let slow = run.begin("slow", Some(all));
    let bad = run.begin("bad", Some(all));
    run.writes(bad, "bad.c: error\n");
    assert_eq!(run.shown.text(), "redo  all\nredo    slow\n");
    run.fails(bad);
    let so_far = "redo  all\nredo    slow\nredo    bad\nbad.c: error\nredo: bad: status 3\n";
    assert_eq!(run.shown.text(), so_far);
    run.writes(slow, "slow\n");
    run.ends(slow);
    run.fails(all);
    assert_eq!(
        run.shown.text(),
        so_far.to_string() + "slow\nredo: all: status 3\n"
    );
}

#[test]
fn builds_that_a_failed_one_asked_for_follow_when_it_is_its_turn() {
    let mut run = Run::new(Errors::Logs);
    let (slow, bad) = (run.begin("slow", None), run.begin("bad", None));
    let child = run.begin("child", Some(bad));
    run.writes(child, "child\n");
    run.ends(child);
    run.fails(bad);
    assert_eq!(
        run.shown.text(),
        "redo  slow\nredo  bad\nredo: bad: status 3\n"
    );
    run.ends(slow);
    let wanted = "redo  slow\nredo  bad\nredo: bad: status 3\nredo    child\nchild\n";
    assert_eq!(run.shown.text(), wanted);
}

#[test]
fn a_complaint_within_a_script_that_goes_on_is_shown_at_once() {
    let mut run = Run::new(Errors::Logs);
    let (slow, x) = (run.begin("slow", None), run.begin("x", None));
    run.display.complain(Some(x), b"no rule to make y");
    assert_eq!(
        run.shown.text(),
        "redo  slow\nredo  x\nredo: no rule to make y\n"
    );
    run.writes(x, "goes on\n");
    run.ends(x);
    run.ends(slow);
    assert_eq!(
        run.shown.text(),
        "redo  slow\nredo  x\nredo: no rule to make y\ngoes on\n"
    );
}

#[test]
fn a_warning_waits_for_its_turn() {
    let mut run = Run::new(Errors::Logs);
    let (slow, x) = (run.begin("slow", None), run.begin("x", None));
    run.display.say(Some(x), b"y was edited");
    assert_eq!(run.shown.text(), "redo  slow\n");
    run.display.say(None, b"top");
    run.ends(x);
    run.ends(slow);
    assert_eq!(
        run.shown.text(),
        "redo  slow\nredo: top\nredo  x\nredo: y was edited\n"
    );
}

#[test]
fn a_part_of_a_line_is_shown_once_the_build_ends() {
    let mut run = Run::new(Errors::Logs);
    let x = run.begin("x", None);
    run.writes(x, "one\npart");
    assert_eq!(run.shown.text(), "redo  x\none\n");
    run.ends(x);
    assert_eq!(run.shown.text(), "redo  x\none\npart\n");
}

#[test]
fn a_build_that_two_ask_for_is_shown_once() {
    let mut run = Run::new(Errors::Logs);
    let (x, y) = (run.begin("x", None), run.begin("y", None));
    let shared = run.begin("shared", Some(x));
    run.display.builds[y.0].asks_for(b"shared");
    run.ends(shared);
    run.ends(x);
    run.ends(y);
    assert_eq!(run.shown.text(), "redo  x\nredo    shared\nredo  y\n");
}

#[test]
fn what_was_built_before_belongs_to_the_stored_log() {
    let mut run = Run::new(Errors::Logs);
    let need = run.begin("need", None);
    run.ends(need);
    let begun = Begun {
        name: b"x",
        path: b"x",
        asker: None,
        stamp: Some(b"b2-1"),
        built_before: &[b"need".to_vec()],
    };
    let x = run.display.begin(&begun).unwrap();
    run.ends(x);
    assert_eq!(run.shown.text(), "redo  need\nredo  x\n");
    let mut lines = Lines::open(&run.display.home, b"x", None).unwrap();
    let first = lines.next(false).unwrap();
    assert_eq!(first, Some(Line::Mark(Mark::Built(b"need".to_vec()))));
}

#[test]
fn without_logs_all_is_shown_at_once() {
    let mut run = Run::new(Errors::Direct);
    let x = run.begin("x", None);
    let y = run.begin("y", Some(x));
    assert_eq!(run.display.errors_of(y), 2);
    run.display.say(Some(x), b"said");
    run.fails(y);
    run.ends(x);
    assert_eq!(
        run.shown.text(),
        "redo  x\nredo    y\nredo: said\nredo: y: status 3\n"
    );
    assert!(!log::is_kept(&run.display.home, b"x").unwrap());
}

#[test]
fn why_a_guess_failed_is_shown_once_somebody_asks_for_it() {
    let mut run = Run::new(Errors::Logs);
    let all = run.begin("all", None);
    let guess = run.begin("n", Some(all));
    run.display
        .fail_unasked(guess, &Failure::Script(Exit::Status(3)), None);
    run.display.finish(true);
    assert_eq!(run.shown.text(), "redo  all\nredo    n\n");
    assert!(run.display.tell_held(Some(all), b"n"));
    assert!(!run.display.tell_held(Some(all), b"n"));
    assert_eq!(
        run.shown.text(),
        "redo  all\nredo    n\nredo: n: status 3\n"
    );
}

#[test]
fn failures_are_summed_up() {
    let mut run = Run::new(Errors::Logs);
    let (x, y) = (run.begin("x", None), run.begin("y", None));
    run.fails(x);
    run.fails(y);
    run.display.refuse(None, b"no rule to make z");
    let before = run.shown.text();
    run.display.finish(true);
    let wanted = "redo: 3 failures:\nredo:   x: status 3\nredo:   y: status 3\n\
                  redo:   no rule to make z\n";
    assert_eq!(run.shown.text(), before + wanted);
}

#[test]
fn nothing_is_summed_up_without_failures() {
    let mut run = Run::new(Errors::Logs);
    let x = run.begin("x", None);
    run.ends(x);
    run.display.finish(true);
    assert_eq!(run.shown.text(), "redo  x\n");
}

#[test]
fn a_summary_names_a_target_whose_script_did_not_end_by_itself() {
    let mut run = Run::new(Errors::Logs);
    let x = run.begin("x", None);
    run.display
        .fail(x, &Failure::WroteTwice(b"x.do".to_vec()), None);
    run.display.finish(true);
    let wanted = "redo  x\nredo: x: x.do wrote to standard output and made $3\n\
                  redo: x: what isn't the target belongs on standard error\n\
                  redo: 1 failure:\nredo:   x: failed\n";
    assert_eq!(run.shown.text(), wanted);
}
