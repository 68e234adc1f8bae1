//! A happy path of each event. What is expected is what docs/REDO.md and docs/RULES.md say.
mod common;
use common::{answers, rule, run_of, says, targets_run, Tree, ONE, TWO};
use redo_core::{
    Action, Command, Database, Digest, Event, Look, Mark, Name, Say, Stamp, State, Subject, Want,
    Who,
};

const T: Name = Name(1);
const A: Name = Name(2);
const B: Name = Name(3);
const C: Name = Name(4);
const SOURCE: Name = Name(50);

#[test]
fn a_target_is_built_once_and_then_up_to_date() {
    let mut tree = Tree::new(&[SOURCE], &[T]);
    let (user, actions) = tree.user(ONE, Want::UpToDate, &[T]);
    let task = run_of(&actions, T);
    let (request, actions) = tree.script(ONE, task, &[SOURCE]);
    assert!(answers(&actions, request, true));
    assert!(answers(&tree.end(task), user, true));
    assert_eq!(tree.machine.database().cell(T).state, State::Built);
    let (user, actions) = tree.user(TWO, Want::UpToDate, &[T]);
    assert_eq!(targets_run(&actions), []);
    assert!(answers(&actions, user, true));
}

#[test]
fn a_changed_source_builds_what_needs_it() {
    let mut tree = Tree::new(&[SOURCE], &[T]);
    tree.build(ONE, T, &[SOURCE]);
    tree.write(SOURCE);
    assert_eq!(tree.tell(SOURCE), []);
    let (_, actions) = tree.user(TWO, Want::UpToDate, &[T]);
    assert_eq!(targets_run(&actions), [T]);
}

#[test]
fn redo_builds_what_is_up_to_date_and_leaves_a_source() {
    let mut tree = Tree::new(&[SOURCE], &[T]);
    tree.build(ONE, T, &[SOURCE]);
    let (_, actions) = tree.user(TWO, Want::Built, &[T]);
    assert_eq!(targets_run(&actions), [T]);
    let (user, actions) = tree.user(ONE, Want::Built, &[SOURCE]);
    assert_eq!(targets_run(&actions), []);
    assert!(says(&actions, user, Say::Source(SOURCE)) && answers(&actions, user, true));
}

#[test]
fn names_are_begun_in_the_order_in_which_a_script_asks() {
    let mut tree = Tree::new(&[], &[T, A, B, C]);
    let (_, actions) = tree.user(ONE, Want::UpToDate, &[T]);
    let task = run_of(&actions, T);
    let (request, actions) = tree.script(ONE, task, &[C, B, A]);
    assert_eq!(targets_run(&actions), [C]);
    let actions = tree.end(run_of(&actions, C));
    assert_eq!(targets_run(&actions), [B]);
    let actions = tree.end(run_of(&actions, B));
    assert_eq!(targets_run(&actions), [A]);
    let actions = tree.end(run_of(&actions, A));
    assert!(answers(&actions, request, true));
}

#[test]
fn a_token_begins_another_and_goes_back() {
    let mut tree = Tree::new(&[], &[T, A]);
    let (_, actions) = tree.user(ONE, Want::UpToDate, &[T, A]);
    assert_eq!(targets_run(&actions), [T]);
    assert!(actions.contains(&Action::Want { run: ONE, slots: 1 }));
    let begun = tree.event(Event::Slot { run: ONE });
    assert_eq!(targets_run(&begun), [A]);
    let ended = tree.end(run_of(&begun, A));
    assert!(ended.contains(&Action::Return { run: ONE, slots: 1 }));
    let late = tree.event(Event::Slot { run: ONE });
    assert!(late.contains(&Action::Return { run: ONE, slots: 1 }));
}

#[test]
fn a_program_that_is_gone_gives_its_script_the_slot_back() {
    let mut tree = Tree::new(&[], &[T, A]);
    let (_, actions) = tree.user(ONE, Want::UpToDate, &[T]);
    let task = run_of(&actions, T);
    let (request, _) = tree.script(ONE, task, &[A]);
    assert!(!tree.machine.tasks()[&task].has_slot);
    let actions = tree.event(Event::Left { request });
    assert_eq!(actions.iter().filter(|a| matches!(a, Action::Answer { .. })).count(), 0);
    let helper = redo_core::TaskId(2);
    tree.end(helper);
    assert!(tree.machine.tasks()[&task].has_slot);
}

#[test]
fn if_create_builds_again_once_the_file_is_there() {
    let mut tree = Tree::new(&[], &[T]);
    let (_, actions) = tree.user(ONE, Want::UpToDate, &[T]);
    let task = run_of(&actions, T);
    let (names, stamps) = (vec![SOURCE], vec![None]);
    let (request, actions) = tree.call(|request| Event::IfCreate { task, request, names, stamps });
    assert!(answers(&actions, request, true));
    let stamp = tree.write(A);
    let (names, stamps) = (vec![A], vec![Some(stamp)]);
    let (request, actions) = tree.call(|request| Event::IfCreate { task, request, names, stamps });
    assert!(says(&actions, request, Say::Exists(A)) && answers(&actions, request, false));
    tree.end(task);
    assert!(!tree.is_out_of_date(T));
    tree.write(SOURCE);
    tree.tell(SOURCE);
    assert!(tree.is_out_of_date(T));
}

#[test]
fn if_create_takes_more_names_than_one_command() {
    let mut tree = Tree::new(&[], &[T]);
    let (_, actions) = tree.user(ONE, Want::UpToDate, &[T]);
    let task = run_of(&actions, T);
    let names: Vec<Name> = (1000..1100).map(Name).collect();
    let stamps = vec![None; 100];
    let (request, actions) = tree.call(|request| Event::IfCreate { task, request, names, stamps });
    assert_eq!(actions, [Action::Answer { request, right: true }]);
    assert_eq!(tree.machine.database().cell(T).created.len(), 100);
}

#[test]
fn always_builds_again_in_the_next_run_alone() {
    let mut tree = Tree::new(&[], &[T]);
    let (_, actions) = tree.user(ONE, Want::UpToDate, &[T]);
    let task = run_of(&actions, T);
    let (request, actions) = tree.call(|request| Event::Always { task, request });
    assert!(answers(&actions, request, true));
    tree.end(task);
    let (_, actions) = tree.user(ONE, Want::UpToDate, &[T]);
    assert_eq!(targets_run(&actions), []);
    tree.open(redo_core::RunId(3), false);
    let (_, actions) = tree.user(redo_core::RunId(3), Want::UpToDate, &[T]);
    assert_eq!(targets_run(&actions), [T]);
}

#[test]
fn the_content_is_the_mark_unless_a_script_stamps() {
    let mut tree = Tree::new(&[], &[T, A]);
    let (_, actions) = tree.user(ONE, Want::UpToDate, &[T]);
    let task = run_of(&actions, T);
    let digest = Digest(77);
    let (request, actions) = tree.call(|request| Event::Stamp { task, request, digest });
    assert!(answers(&actions, request, true));
    tree.end(task);
    assert_eq!(tree.machine.database().mark(Subject::File(T)), Mark::Digest(digest));
    let (_, actions) = tree.user(ONE, Want::UpToDate, &[A]);
    tree.end_with(run_of(&actions, A), Stamp(500));
    assert_eq!(tree.machine.database().mark(Subject::File(A)), Mark::Digest(Digest(500)));
}

#[test]
fn the_same_output_builds_nothing_above_it() {
    let mut tree = Tree::new(&[SOURCE], &[T, A]);
    tree.build(ONE, A, &[SOURCE]);
    tree.build(ONE, T, &[A]);
    tree.write(SOURCE);
    tree.tell(SOURCE);
    assert!(tree.is_out_of_date(T));
    let (user, actions) = tree.user(TWO, Want::UpToDate, &[T]);
    assert_eq!(targets_run(&actions), [A]);
    let same = tree.files[&A];
    let actions = tree.end_with(run_of(&actions, A), same);
    assert_eq!(targets_run(&actions), []);
    assert!(answers(&actions, user, true));
}

#[test]
fn a_late_name_counts_as_changed() {
    let mut tree = Tree::new(&[SOURCE], &[T]);
    let (_, actions) = tree.user(ONE, Want::UpToDate, &[T]);
    let task = run_of(&actions, T);
    let (request, event) = tree.asking(ONE, task, &[SOURCE]);
    let (run, who, want, names, looks) = match event {
        Event::Ask { run, who, want, names, looks, .. } => (run, who, want, names, looks),
        _ => unreachable!(),
    };
    let looks = looks.into_iter().map(|look| Look { late: true, ..look }).collect();
    let actions = tree.event(Event::Ask { run, request, who, want, names, looks });
    assert!(answers(&actions, request, true));
    tree.end(task);
    assert!(tree.is_out_of_date(T));
    assert!(tree.machine.database().cell(T).always);
}

#[test]
fn closing_fails_what_is_built_and_unlocks_it_for_the_next() {
    let mut tree = Tree::new(&[], &[T]);
    let (_, actions) = tree.user(ONE, Want::UpToDate, &[T]);
    assert_eq!(targets_run(&actions), [T]);
    let (_, actions) = tree.user(TWO, Want::UpToDate, &[T]);
    assert_eq!(targets_run(&actions), []);
    let actions = tree.event(Event::Close { run: ONE });
    assert_eq!(targets_run(&actions), [T]);
    assert_eq!(tree.machine.database().cell(T).holder, Some(TWO));
    assert!(!tree.machine.runs().contains_key(&ONE));
}

#[test]
fn who_asks_after_its_script_has_ended_is_told_no() {
    let mut tree = Tree::new(&[SOURCE], &[T]);
    let (_, actions) = tree.user(ONE, Want::UpToDate, &[T]);
    let task = run_of(&actions, T);
    tree.end(task);
    let (request, actions) = tree.script(ONE, task, &[SOURCE]);
    assert_eq!(actions, [Action::Answer { request, right: false }]);
    let (request, actions) = tree.call(|request| Event::Always { task, request });
    assert_eq!(actions, [Action::Answer { request, right: false }]);
}

#[test]
fn a_do_file_that_is_a_target_is_built_first() {
    let mut tree = Tree::new(&[SOURCE], &[T, rule(T)]);
    tree.remove(rule(T));
    tree.build(ONE, rule(T), &[SOURCE]);
    tree.build(ONE, T, &[SOURCE]);
    tree.write(SOURCE);
    tree.tell(SOURCE);
    let (user, actions) = tree.user(TWO, Want::Built, &[T]);
    assert_eq!(targets_run(&actions), [rule(T)]);
    let actions = tree.end(run_of(&actions, rule(T)));
    assert_eq!(targets_run(&actions), [T]);
    assert!(answers(&tree.end(run_of(&actions, T)), user, true));
}

#[test]
fn a_target_whose_do_file_fails_has_failed() {
    let mut tree = Tree::new(&[SOURCE], &[T, rule(T)]);
    tree.remove(rule(T));
    tree.build(ONE, rule(T), &[SOURCE]);
    tree.write(SOURCE);
    tree.tell(SOURCE);
    let (user, actions) = tree.user(TWO, Want::UpToDate, &[T]);
    let actions = tree.fail(run_of(&actions, rule(T)));
    assert!(says(&actions, user, Say::RuleFailed { target: T, do_file: rule(T) }));
    assert!(answers(&actions, user, false));
    assert_eq!(tree.machine.database().cell(T).state, State::Failed);
}

#[test]
fn a_ring_of_scripts_is_named_and_refused() {
    let mut tree = Tree::new(&[], &[T, A]);
    let (_, actions) = tree.user(ONE, Want::UpToDate, &[T]);
    let task = run_of(&actions, T);
    let (_, actions) = tree.script(ONE, task, &[A]);
    let other = run_of(&actions, A);
    let (request, actions) = tree.script(ONE, other, &[T]);
    assert!(says(&actions, request, Say::Ring(vec![T, A, T])));
    assert!(answers(&actions, request, false));
}

#[test]
fn a_command_has_at_most_64_names() {
    let names: Vec<Name> = (1000..1130).map(Name).collect();
    let mut tree = Tree::new(&names, &[T]);
    let model = redo_explorer::model::Model::new(true);
    tree.machine = redo_core::Machine::new(model, false);
    tree.open(ONE, false);
    let (_, actions) = tree.user(ONE, Want::UpToDate, &[T]);
    let task = run_of(&actions, T);
    let (request, actions) = tree.script(ONE, task, &names);
    assert!(answers(&actions, request, true));
    let history = tree.machine.database().history.as_ref().unwrap();
    let counts = history.iter().filter_map(|(_, command, _)| match command {
        Command::IfChange(target, names) if *target == T => Some(names.len()),
        _ => None,
    });
    assert_eq!(counts.collect::<Vec<usize>>(), [1, 64, 64, 2]);
    assert_eq!(tree.machine.requests().values().filter(|r| r.who != Who::User).count(), 0);
}
