//! Somebody uses the database who is no run: it takes locks, and reports files.
mod common;
use common::{answers, run_of, targets_run, Tree, ONE, TWO};
use redo_core::{
    Action, Command, Database, Event, Name, Phase, Reply, RunId, Stamp, Subject, Want,
};

const T: Name = Name(1);
const A: Name = Name(2);
const SOURCE: Name = Name(50);
const STRANGER: RunId = RunId(64);

fn tells(tree: &mut Tree, command: &Command) {
    assert_eq!(tree.machine.database_mut().obey(STRANGER, command), Reply::Done);
}

fn unlocks(tree: &mut Tree, name: Name) -> Vec<Action> {
    tells(tree, &Command::Unlock(name));
    tree.event(Event::Unlocked { name })
}

#[test]
fn a_run_waits_for_the_lock_of_a_stranger_and_builds_what_else_is_wanted() {
    let mut tree = Tree::new(&[], &[T, A]);
    tells(&mut tree, &Command::Lock(T));
    let (user, actions) = tree.user(ONE, Want::UpToDate, &[T, A]);
    assert_eq!(targets_run(&actions), [A]);
    assert_eq!(targets_run(&tree.end(run_of(&actions, A))), []);
    let actions = unlocks(&mut tree, T);
    assert_eq!(targets_run(&actions), [T]);
    assert!(answers(&tree.end(run_of(&actions, T)), user, true));
}

#[test]
fn a_stranger_may_have_the_lock_again_before_the_run_has_it() {
    let mut tree = Tree::new(&[], &[T]);
    tells(&mut tree, &Command::Lock(T));
    tree.user(ONE, Want::UpToDate, &[T]);
    tells(&mut tree, &Command::Unlock(T));
    tells(&mut tree, &Command::Lock(T));
    assert_eq!(tree.event(Event::Unlocked { name: T }), []);
    assert_eq!(targets_run(&unlocks(&mut tree, T)), [T]);
}

#[test]
fn of_two_runs_that_wait_for_a_stranger_the_second_goes_on_without_the_first() {
    let mut tree = Tree::new(&[], &[T]);
    tells(&mut tree, &Command::Lock(T));
    tree.user(ONE, Want::UpToDate, &[T]);
    let (user, _) = tree.user(TWO, Want::UpToDate, &[T]);
    assert_eq!(tree.event(Event::Close { run: ONE }), []);
    let phases: Vec<Phase> = tree.machine.tasks().values().map(|task| task.phase).collect();
    assert_eq!(phases, [Phase::Barred]);
    assert_eq!(tree.machine.database().cell(T).holder, Some(STRANGER));
    let actions = unlocks(&mut tree, T);
    assert!(answers(&tree.end(run_of(&actions, T)), user, true));
}

#[test]
fn nobody_waits_for_a_stranger_once_the_program_is_gone() {
    let mut tree = Tree::new(&[], &[T, A]);
    tells(&mut tree, &Command::Lock(A));
    let (user, actions) = tree.user(ONE, Want::UpToDate, &[T]);
    let task = run_of(&actions, T);
    let (request, _) = tree.script(ONE, task, &[A]);
    tree.event(Event::Left { request });
    assert_eq!(tree.machine.tasks().len(), 1);
    assert!(tree.machine.owners().get(&A).is_none() && tree.machine.tasks()[&task].has_slot);
    assert!(answers(&tree.end(task), user, true));
}

#[test]
fn what_a_stranger_changes_and_changes_back_is_built_once_more() {
    let mut tree = Tree::new(&[SOURCE], &[T]);
    let (_, actions) = tree.user(ONE, Want::UpToDate, &[T]);
    let task = run_of(&actions, T);
    tree.script(ONE, task, &[SOURCE]);
    for stamp in [Stamp(9999), tree.files[&SOURCE]] {
        tells(&mut tree, &Command::File(Subject::File(SOURCE), stamp));
    }
    tree.event(Event::Touched { run: ONE, name: SOURCE });
    tree.end(task);
    assert!(tree.is_out_of_date(T) && tree.machine.database().cell(T).always);
}

#[test]
fn what_is_built_from_an_edited_target_follows_what_a_stranger_reports() {
    let mut tree = Tree::new(&[], &[T, A]);
    tree.build(ONE, A, &[]);
    tree.write(A);
    tree.tell(A);
    tree.build(ONE, T, &[A]);
    assert!(!tree.is_out_of_date(T));
    let stamp = tree.write(A);
    tells(&mut tree, &Command::File(Subject::File(A), stamp));
    tree.event(Event::Touched { run: TWO, name: A });
    assert!(tree.is_out_of_date(T));
}
