//! Faults that an earlier redo had, each as a short trace.
mod common;
use common::{answers, rule, run_of, says, targets_run, Tree, ONE, TWO};
use redo_core::{Action, Database, Mark, Name, RunId, Say, Subject, Want};

const T: Name = Name(1);
const A: Name = Name(2);
const B: Name = Name(3);
const SOURCE: Name = Name(50);
const OTHER: Name = Name(51);
const THREE: RunId = RunId(3);

/// A script ends while a request of its own waits: its slot serves others.
#[test]
fn a_script_that_ends_while_its_request_waits_keeps_no_slot() {
    let mut tree = Tree::new(&[], &[T, A, B]);
    let (user, actions) = tree.user(ONE, Want::UpToDate, &[T, B]);
    let task = run_of(&actions, T);
    let (request, actions) = tree.script(ONE, task, &[A]);
    let other = run_of(&actions, A);
    let ended = tree.end(task);
    assert!(!answers(&ended, request, true) && !answers(&ended, request, false));
    let actions = tree.end(other);
    assert_eq!(targets_run(&actions), [B]);
    assert!(answers(&tree.end(run_of(&actions, B)), user, true));
}

/// A file is edited between two calls for it: its row stays as it was at the first answer.
#[test]
fn a_name_that_is_asked_for_again_keeps_its_row() {
    let mut tree = Tree::new(&[SOURCE], &[T]);
    let (_, actions) = tree.user(ONE, Want::UpToDate, &[T]);
    let task = run_of(&actions, T);
    tree.script(ONE, task, &[SOURCE]);
    let first = tree.files[&SOURCE];
    tree.write(SOURCE);
    let (request, actions) = tree.script(ONE, task, &[SOURCE]);
    assert!(answers(&actions, request, true));
    tree.end(task);
    let row = tree.machine.database().row(T, Subject::File(SOURCE));
    assert_eq!(row, Some(Mark::File(first)));
    assert!(tree.is_out_of_date(T));
}

/// Two runs want one target: what the second knows of it is from after its lock.
#[test]
fn the_second_run_looks_after_it_has_the_lock() {
    let mut tree = Tree::new(&[], &[T]);
    let (_, actions) = tree.user(ONE, Want::UpToDate, &[T]);
    let task = run_of(&actions, T);
    let (user, actions) = tree.user(TWO, Want::UpToDate, &[T]);
    assert_eq!(actions.iter().filter(|a| matches!(a, Action::Look { .. })).count(), 0);
    let actions = tree.end(task);
    assert_eq!(targets_run(&actions), []);
    assert!(answers(&actions, user, true));
}

/// A needs B by its last build; the scripts changed, so that now B needs A, and A no more B.
#[test]
fn a_guess_closes_no_ring() {
    let mut tree = Tree::new(&[SOURCE, OTHER], &[A, B]);
    tree.build(ONE, B, &[SOURCE]);
    tree.build(ONE, A, &[B]);
    tree.write(SOURCE);
    tree.tell(SOURCE);
    let (user, actions) = tree.user(TWO, Want::UpToDate, &[A]);
    assert_eq!(targets_run(&actions), [B]);
    let task = run_of(&actions, B);
    let (request, actions) = tree.script(TWO, task, &[A]);
    assert!(!actions.iter().any(|action| matches!(action, Action::Say { .. })), "{actions:?}");
    let other = run_of(&actions, A);
    let (own, actions) = tree.script(TWO, other, &[OTHER]);
    assert!(answers(&actions, own, true));
    let actions = tree.end(other);
    assert!(answers(&actions, request, true) && answers(&actions, user, true));
    tree.end(task);
    assert!(!tree.is_out_of_date(A) && !tree.is_out_of_date(B));
}

/// A script goes on without a name that nothing makes: it is run again once there is a rule.
#[test]
fn a_rule_that_appears_counts() {
    let mut tree = Tree::new(&[], &[T]);
    let (_, actions) = tree.user(ONE, Want::UpToDate, &[T]);
    let task = run_of(&actions, T);
    let (request, actions) = tree.script(ONE, task, &[A]);
    assert!(says(&actions, request, Say::NoRule(A)) && answers(&actions, request, false));
    tree.end(task);
    assert!(!tree.is_out_of_date(T));
    tree.write(rule(A));
    tree.tell(rule(A));
    assert!(tree.is_out_of_date(T));
}

/// A script asks again while its slot is on its way back: the slot serves what it waits for.
#[test]
fn a_script_that_asks_again_gets_no_slot_while_it_waits() {
    let mut tree = Tree::new(&[], &[T, A, B]);
    let (_, actions) = tree.user(ONE, Want::UpToDate, &[T]);
    let task = run_of(&actions, T);
    let (first, event) = tree.asking(ONE, task, &[A]);
    let actions = tree.event(event);
    let helper = run_of(&actions, A);
    let (second, actions) = tree.script(ONE, task, &[B]);
    assert_eq!(targets_run(&actions), []);
    let actions = tree.end(helper);
    assert!(answers(&actions, first, true));
    assert_eq!(targets_run(&actions), [B]);
    assert!(!tree.machine.tasks()[&task].has_slot);
    let actions = tree.end(run_of(&actions, B));
    assert!(answers(&actions, second, true));
    assert!(tree.machine.tasks()[&task].has_slot);
}

/// A target that was built in this run, and whose file is gone, is neither right nor built again.
#[test]
fn a_file_that_vanished_in_the_run_is_not_built_twice() {
    let mut tree = Tree::new(&[], &[T, A]);
    let (_, actions) = tree.user(ONE, Want::UpToDate, &[A]);
    tree.end(run_of(&actions, A));
    tree.remove(A);
    let (_, actions) = tree.user(ONE, Want::UpToDate, &[T]);
    let task = run_of(&actions, T);
    let (request, actions) = tree.script(ONE, task, &[A]);
    assert_eq!(targets_run(&actions), []);
    assert!(says(&actions, request, Say::Gone(A)) && answers(&actions, request, false));
    tree.end(task);
    assert!(tree.is_out_of_date(T));
    tree.open(THREE, false);
    let (_, actions) = tree.user(THREE, Want::UpToDate, &[T]);
    let task = run_of(&actions, T);
    let (_, actions) = tree.script(THREE, task, &[A]);
    assert_eq!(targets_run(&actions), [A]);
}

/// A name fails, then is there, and is asked for twice: the first row stays.
#[test]
fn a_name_that_failed_first_keeps_its_row() {
    let mut tree = Tree::new(&[], &[T]);
    let (_, actions) = tree.user(ONE, Want::UpToDate, &[T]);
    let task = run_of(&actions, T);
    let (request, actions) = tree.script(ONE, task, &[A]);
    assert!(answers(&actions, request, false));
    tree.write(A);
    tree.script(ONE, task, &[A]);
    tree.end(task);
    let row = tree.machine.database().row(T, Subject::File(A));
    assert_eq!(row, Some(Mark::Absent));
    assert!(tree.is_out_of_date(T));
}

/// What changes and changes back while a script runs counts.
#[test]
fn a_change_that_is_undone_counts() {
    let mut tree = Tree::new(&[SOURCE], &[T]);
    let (_, actions) = tree.user(ONE, Want::UpToDate, &[T]);
    let task = run_of(&actions, T);
    tree.script(ONE, task, &[SOURCE]);
    let first = tree.files[&SOURCE];
    tree.write(SOURCE);
    tree.tell(SOURCE);
    tree.files.insert(SOURCE, first);
    tree.tell(SOURCE);
    tree.end(task);
    assert!(tree.is_out_of_date(T));
}

/// A script asks for its own `.do` file, which was changed while it runs: the row stays that of the
/// text that it was run by.
#[test]
fn the_row_on_the_do_file_stays() {
    let mut tree = Tree::new(&[], &[T]);
    let (_, actions) = tree.user(ONE, Want::UpToDate, &[T]);
    let task = run_of(&actions, T);
    let first = tree.files[&rule(T)];
    tree.write(rule(T));
    let (request, actions) = tree.script(ONE, task, &[rule(T)]);
    assert!(answers(&actions, request, true));
    tree.end(task);
    let row = tree.machine.database().row(T, Subject::File(rule(T)));
    assert_eq!(row, Some(Mark::File(first)));
    assert!(tree.is_out_of_date(T));
}
