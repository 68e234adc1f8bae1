//! Targets that somebody edited, as docs/REDO.md says.
mod common;
use common::{answers, run_of, says, targets_run, Tree, ONE, TWO};
use redo_core::{Database, Event, Name, RunId, Say, State, Subject, Want};

const T: Name = Name(1);
const A: Name = Name(2);
const SOURCE: Name = Name(50);
const THREE: RunId = RunId(3);

/// T was built from A, and A from a source; then somebody edited A.
fn edited() -> Tree {
    let mut tree = Tree::new(&[SOURCE], &[T, A]);
    tree.build(ONE, A, &[SOURCE]);
    tree.build(ONE, T, &[A]);
    tree.write(A);
    tree.tell(A);
    tree
}

#[test]
fn an_edited_target_is_left_with_its_rows_and_warned_of() {
    let mut tree = edited();
    let rows = tree.machine.database().cell(A).changed.clone();
    let (user, actions) = tree.user(TWO, Want::Built, &[A]);
    assert_eq!(targets_run(&actions), []);
    assert!(says(&actions, user, Say::ByHand(A)) && answers(&actions, user, true));
    assert_eq!(tree.machine.database().cell(A).changed, rows);
    assert_eq!(tree.machine.database().cell(A).state, State::Built);
}

#[test]
fn what_depends_on_it_follows_its_content() {
    let mut tree = edited();
    let (user, actions) = tree.user(TWO, Want::UpToDate, &[T]);
    let task = run_of(&actions, T);
    let (request, actions) = tree.script(TWO, task, &[A]);
    assert!(answers(&actions, request, true));
    assert!(answers(&tree.end(task), user, true));
    assert!(!tree.is_out_of_date(T));
    tree.write(A);
    tree.tell(A);
    assert!(tree.is_out_of_date(T));
}

#[test]
fn each_run_warns_of_what_it_is_built_from() {
    let mut tree = edited();
    let (_, actions) = tree.user(TWO, Want::UpToDate, &[T]);
    let task = run_of(&actions, T);
    tree.script(TWO, task, &[A]);
    tree.end(task);
    tree.open(THREE, false);
    let (user, actions) = tree.user(THREE, Want::UpToDate, &[T]);
    assert_eq!(targets_run(&actions), []);
    assert!(says(&actions, user, Say::ByHand(A)) && answers(&actions, user, true));
}

#[test]
fn as_its_build_left_it_it_is_a_target_like_any_other() {
    let mut tree = Tree::new(&[SOURCE], &[T, A]);
    tree.build(ONE, A, &[SOURCE]);
    let built = tree.files[&A];
    tree.write(A);
    tree.tell(A);
    assert!(tree.machine.database().file(Subject::Edited(A)).is_some());
    tree.files.insert(A, built);
    tree.tell(A);
    assert_eq!(tree.machine.database().file(Subject::Edited(A)), None);
    assert!(!tree.is_out_of_date(A));
}

#[test]
fn overwriting_builds_it_and_so_does_removing_its_file() {
    let mut tree = edited();
    let (_, actions) = tree.user(TWO, Want::Overwritten, &[A]);
    assert_eq!(targets_run(&actions), [A]);
    let mut tree = edited();
    tree.remove(A);
    let (_, actions) = tree.user(TWO, Want::UpToDate, &[A]);
    assert_eq!(targets_run(&actions), [A]);
}

#[test]
fn an_edit_after_the_build_of_the_run_is_left_also_if_it_may_be_overwritten() {
    let mut tree = Tree::new(&[], &[T]);
    tree.build(ONE, T, &[]);
    tree.write(T);
    tree.tell(T);
    let (user, actions) = tree.user(ONE, Want::Overwritten, &[T]);
    assert!(says(&actions, user, Say::ByHand(T)), "{actions:?}");
    assert!(answers(&actions, user, true) && targets_run(&actions).is_empty());
}

#[test]
fn what_a_failed_build_left_is_no_edit_and_what_comes_after_is() {
    let mut tree = Tree::new(&[SOURCE], &[A]);
    let (_, actions) = tree.user(ONE, Want::UpToDate, &[A]);
    let task = run_of(&actions, A);
    tree.write(A);
    tree.fail(task);
    let (_, actions) = tree.user(TWO, Want::UpToDate, &[A]);
    assert_eq!(targets_run(&actions), [A]);
    tree.fail(run_of(&actions, A));
    tree.write(A);
    tree.open(THREE, false);
    let (user, actions) = tree.user(THREE, Want::UpToDate, &[A]);
    assert_eq!(targets_run(&actions), []);
    assert!(says(&actions, user, Say::ByHand(A)));
}

#[test]
fn after_a_killed_build_nobody_knows_what_it_left() {
    let mut tree = Tree::new(&[SOURCE], &[A]);
    tree.user(ONE, Want::UpToDate, &[A]);
    tree.write(A);
    tree.event(Event::Close { run: ONE });
    let (_, actions) = tree.user(TWO, Want::UpToDate, &[A]);
    assert_eq!(targets_run(&actions), [A]);
}

/// Its row is on the target itself then, so what is built from it is built in each run.
#[test]
fn a_name_too_long_for_another_is_left_all_the_same() {
    let mut tree = Tree::new(&[SOURCE], &[T, A]);
    tree.machine.database_mut().long.insert(A);
    tree.build(ONE, A, &[SOURCE]);
    tree.build(ONE, T, &[A]);
    tree.write(A);
    tree.tell(A);
    let (user, actions) = tree.user(TWO, Want::UpToDate, &[T]);
    assert_eq!(targets_run(&actions), [T]);
    let task = run_of(&actions, T);
    let (request, actions) = tree.script(TWO, task, &[A]);
    assert!(answers(&actions, request, true));
    let actions = tree.end(task);
    assert!(says(&actions, user, Say::ByHand(A)) && answers(&actions, user, true));
    assert!(tree.is_out_of_date(T));
    assert_eq!(tree.machine.database().file(Subject::Edited(A)), None);
}
