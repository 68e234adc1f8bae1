use std::fs::{self, File};
use std::os::unix::fs::symlink;

use super::*;
use crate::marks::{Log, Marks, LEAST_HEARD};
use crate::scratch::Tree;

/// The first lines of a log that was compacted: a dump of one name.
const DUMP: &str = "redodb-log 2\nstate 1 4 0123456789012345678901234567890123456789\na 1\n";

/// What a server finds that starts.
#[derive(Clone, Copy, Debug, PartialEq, Eq)]
enum Found {
    /// The former one has ended in order.
    Ended,
    /// It was killed in this boot of the machine.
    Killed,
    /// It was killed in another boot.
    Lost,
    /// The log isn't the one that it left.
    Replaced,
}

/// A kill of a start comes just after such a step, and all before it.
#[derive(Clone, Copy, Debug, PartialEq, Eq, PartialOrd, Ord)]
enum Step {
    Nothing,
    NewLogMade,
    Marked,
    NewLogBegun,
    Compacted,
    NewLogRemoved,
    RunningNoted,
    EndForgotten,
    Begun,
}

const STEPS: [Step; 9] = [
    Step::Nothing,
    Step::NewLogMade,
    Step::Marked,
    Step::NewLogBegun,
    Step::Compacted,
    Step::NewLogRemoved,
    Step::RunningNoted,
    Step::EndForgotten,
    Step::Begun,
];

/// Those up to which a second start is done.
const SECOND: [Step; 4] = [
    Step::Marked,
    Step::Compacted,
    Step::EndForgotten,
    Step::Begun,
];

fn marks(tree: &Tree) -> Marks {
    Marks::new(&tree.home, b"this")
}

fn verdict_in(tree: &Tree, boot: &str) -> Log {
    let mut marks = Marks::new(&tree.home, boot.as_bytes());
    marks.open();
    marks.log()
}

fn verdict(tree: &Tree) -> Log {
    verdict_in(tree, "this")
}

/// What the marks say of a log that is there, without a start.
fn verdict_of(tree: &Tree, boot: &str) -> Log {
    Marks::new(&tree.home, boot.as_bytes()).judged(log_file(&tree.home))
}

/// What the new log has, if it is there.
fn new_log(tree: &Tree) -> Vec<u8> {
    fs::read(tree.at(".redo/log.new")).unwrap_or_default()
}

/// Has a log of so many bytes, all of them NUL.
fn write_log(tree: &Tree, length: u64) {
    let log = File::create(tree.at(".redo/log")).unwrap();
    log.set_len(length).unwrap();
}

/// A tree whose log is long enough to be compacted.
fn found(found: Found) -> Tree {
    let tree = Tree::new();
    write_log(&tree, LEAST_COMPACTED + 9);
    match found {
        Found::Ended => marks(&tree).end().unwrap(),
        Found::Killed => marks(&tree).begin().unwrap(),
        Found::Lost => Marks::new(&tree.home, b"former").begin().unwrap(),
        Found::Replaced => {
            marks(&tree).end().unwrap();
            write_log(&tree, LEAST_COMPACTED);
        }
    }
    tree
}

/// Does what redodb-live does when it compacts: it writes the new log, and renames it.
fn compact(tree: &Tree) {
    tree.write(".redo/log.new", DUMP); // a file that is there keeps its number
    fs::rename(tree.at(".redo/log.new"), tree.at(".redo/log")).unwrap();
}

/// Does a start up to a step, with a redodb-live that compacts the log when it may.
fn start(tree: &Tree, last: Step) {
    let mut marks = marks(tree);
    if last == Step::NewLogMade {
        drop(mark_new_log(tree));
    }
    if last < Step::Marked {
        return;
    }
    match (marks.open(), last) {
        (Keeping::Compacting, Step::NewLogBegun) => tree.write(".redo/log.new", "redo"),
        (Keeping::Compacting, last) if last > Step::NewLogBegun => compact(tree),
        _ => {}
    }
    if last >= Step::NewLogRemoved {
        clear(&tree.home).unwrap();
    }
    if last >= Step::RunningNoted {
        marks.note_running().unwrap();
    }
    if last >= Step::EndForgotten {
        marks.forget_end().unwrap();
    }
    if last == Step::Begun {
        forget(&tree.home).unwrap();
    }
}

/// Makes the new log alone.
fn mark_new_log(tree: &Tree) -> File {
    let making = Opening::READ.making(0o600);
    tree.home.open_file(NEW_LOG, making).unwrap()
}

/// What the log is after starts of which the one that got furthest ended with this step.
fn wanted(found: Found, furthest: Step, boot: &str) -> Log {
    let is_noted = furthest >= Step::RunningNoted && boot == "this";
    let is_end_there = furthest < Step::EndForgotten;
    match found {
        Found::Ended if is_end_there => Log::Whole,
        Found::Replaced if is_end_there => Log::Other,
        Found::Killed if boot == "this" => Log::Whole,
        _ if is_noted => Log::Whole,
        _ => Log::Cut,
    }
}

#[test]
fn whatever_a_kill_leaves_of_two_starts_is_known() {
    for before in [Found::Ended, Found::Killed, Found::Lost, Found::Replaced] {
        for first in STEPS {
            for second in SECOND {
                let tree = found(before);
                start(&tree, first);
                start(&tree, second);
                for boot in ["other", "this"] {
                    let name = format!("{before:?}, {first:?}, {second:?}, {boot} boot");
                    let wanted = wanted(before, first.max(second), boot);
                    assert_eq!(verdict_in(&tree, boot), wanted, "{name}");
                }
            }
        }
    }
}

#[test]
fn the_marks_of_a_start_are_gone_after_it() {
    for last in STEPS {
        let tree = found(Found::Ended);
        start(&tree, last);
        start(&tree, Step::Begun);
        for path in [".redo/server/compacting", ".redo/clean"] {
            assert!(!tree.at(path).exists(), "{last:?}: {path}");
        }
        assert_eq!(new_log(&tree), b"", "{last:?}");
        let log = fs::read_to_string(tree.at(".redo/log")).unwrap();
        assert_eq!(log, DUMP, "{last:?}");
    }
}

#[test]
fn a_short_log_is_kept_whole_without_a_mark() {
    let tree = found(Found::Ended);
    write_log(&tree, LEAST_COMPACTED - 1);
    marks(&tree).end().unwrap();
    assert_eq!(marks(&tree).open(), Keeping::Whole);
    assert!(!tree.at(".redo/server/compacting").exists());
    assert!(!tree.at(".redo/log.new").exists());
    write_log(&tree, LEAST_COMPACTED);
    assert_eq!(marks(&tree).open(), Keeping::Compacting);
}

#[test]
fn a_log_that_stands_for_another_is_kept_whole() {
    let tree = found(Found::Ended);
    start(&tree, Step::Compacted);
    let head = DUMP.replace(" 4 ", &format!(" {LEAST_COMPACTED} "));
    let head = head.strip_suffix("a 1\n").unwrap();
    tree.write(".redo/log", head);
    let log = File::options().write(true).open(tree.at(".redo/log"));
    let length = head.len() as u64 + LEAST_COMPACTED;
    log.unwrap().set_len(length).unwrap();
    let mark = fs::read(tree.at(".redo/server/compacting")).unwrap();
    let mut marks = marks(&tree);
    assert_eq!((marks.open(), marks.log()), (Keeping::Whole, Log::Whole));
    assert_eq!(fs::read(tree.at(".redo/server/compacting")).unwrap(), mark);
}

#[test]
fn a_new_log_that_was_not_needed_is_removed() {
    let tree = found(Found::Ended);
    let mut marks = marks(&tree);
    assert_eq!(marks.open(), Keeping::Compacting);
    assert_eq!(fs::read(tree.at(".redo/log.new")).unwrap(), b"");
    marks.begin().unwrap();
    marks.end().unwrap();
    assert!(!tree.at(".redo/log.new").exists());
}

/// So many bytes are answered between two looks at the log.
const HEARD: usize = LEAST_HEARD as usize;

#[test]
fn a_log_that_is_compacted_while_a_server_runs_is_the_same() {
    let tree = found(Found::Ended);
    let mut marks = marks(&tree);
    assert_eq!(marks.open(), Keeping::Compacting);
    marks.begin().unwrap();
    for _ in 0..3 {
        assert_eq!(verdict_of(&tree, "this"), Log::Whole);
        compact(&tree);
        tree.write(".redo/log", &[DUMP, "1 file a 2 => ok\n"].concat());
        assert_eq!(verdict_of(&tree, "this"), Log::Whole);
        assert_eq!(verdict_of(&tree, "other"), Log::Cut);
        marks.follow(HEARD - 1).unwrap();
        assert!(!tree.at(".redo/log.new").exists());
        marks.follow(1).unwrap();
        assert_eq!(new_log(&tree), b"");
    }
    marks.end().unwrap();
    assert_eq!(verdict_of(&tree, "other"), Log::Whole);
}

#[test]
fn a_log_that_is_compacted_twice_unmarked_is_another() {
    let tree = found(Found::Ended);
    let mut marks = marks(&tree);
    assert_eq!(marks.open(), Keeping::Compacting);
    marks.begin().unwrap();
    // While it is open, no other file gets its number.
    let _former = File::open(tree.at(".redo/log")).unwrap();
    compact(&tree);
    compact(&tree);
    assert_eq!(verdict_of(&tree, "this"), Log::Cut);
}

#[test]
fn a_next_log_that_a_kill_has_left_is_removed() {
    let tree = found(Found::Ended);
    start(&tree, Step::Begun);
    write_log(&tree, LEAST_COMPACTED + 9);
    let mut before = marks(&tree);
    assert_eq!(before.open(), Keeping::Compacting);
    before.begin().unwrap();
    tree.write(".redo/log.new", "redodb-log 2\nstate 9"); // a dump of a state that is gone
    let mut marks = marks(&tree);
    assert_eq!(
        (marks.open(), marks.log()),
        (Keeping::Compacting, Log::Whole)
    );
    marks.begin().unwrap();
    assert_eq!(new_log(&tree), b"");
}

#[test]
fn a_log_that_is_kept_whole_has_no_next_one() {
    let tree = found(Found::Ended);
    start(&tree, Step::Compacted);
    let mut marks = marks(&tree);
    assert_eq!(marks.open(), Keeping::Whole);
    marks.begin().unwrap();
    marks.follow(HEARD).unwrap();
    assert!(!tree.at(".redo/log.new").exists());
}

#[test]
fn a_log_that_somebody_changed_then_stands_for_none() {
    type Change = fn(&Tree);
    let cases: [(&str, Change); 4] = [
        ("cut", |tree| {
            tree.write(".redo/log", &DUMP[..DUMP.len() - 1])
        }),
        ("longer", |tree| {
            tree.write(".redo/log", &[DUMP, "1 file a 2 => ok\n"].concat())
        }),
        ("of the first form", |tree| {
            tree.write(".redo/log", "redodb-log 1\n1 file a 1 => ok\n")
        }),
        ("another file", |tree| {
            fs::rename(tree.at(".redo/backup"), tree.at(".redo/log")).unwrap();
        }),
    ];
    for (name, change) in cases {
        for (before, wanted) in [(Found::Ended, Log::Other), (Found::Killed, Log::Cut)] {
            let tree = found(before);
            tree.write(".redo/backup", DUMP); // else it could get the number of the former log
            start(&tree, Step::Compacted);
            change(&tree);
            assert_eq!(verdict(&tree), wanted, "{name}: {before:?}");
        }
    }
}

/// Changes a number of the mark, as if another file had the number of the one that it names.
fn change_mark(tree: &Tree, place: usize) {
    let mark = fs::read_to_string(tree.at(".redo/server/compacting")).unwrap();
    let mut numbers: Vec<&str> = mark.trim_end().split(' ').collect();
    numbers[place] = "1";
    tree.write(".redo/server/compacting", &(numbers.join(" ") + "\n"));
}

#[test]
fn another_file_of_the_same_number_is_another_log() {
    const BORN: usize = 2;
    const NEW_BORN: usize = 5;
    for (before, place, last, wanted) in [
        (Found::Killed, BORN, Step::NewLogBegun, Log::Cut),
        (Found::Killed, NEW_BORN, Step::Compacted, Log::Cut),
        (Found::Ended, NEW_BORN, Step::Compacted, Log::Other),
        (Found::Ended, BORN, Step::NewLogBegun, Log::Whole), // its length is known
    ] {
        let tree = found(before);
        start(&tree, last);
        assert_eq!(verdict(&tree), Log::Whole);
        change_mark(&tree, place);
        assert_eq!(verdict(&tree), wanted, "{before:?} {place}");
    }
}

#[test]
fn a_log_that_is_gone_then_is_another() {
    let tree = found(Found::Ended);
    start(&tree, Step::Compacted);
    tree.write(".redo/log", "");
    assert_eq!(verdict(&tree), Log::Other);
    tree.remove(".redo/log");
    assert_eq!(verdict(&tree), Log::Other);
}

#[test]
fn the_log_of_before_is_judged_as_it_is() {
    let tree = found(Found::Ended);
    start(&tree, Step::NewLogBegun);
    write_log(&tree, LEAST_COMPACTED + 8);
    assert_eq!(verdict(&tree), Log::Other);
}

#[test]
fn a_log_that_the_marks_know_needs_no_other() {
    let tree = found(Found::Ended);
    start(&tree, Step::Compacted);
    tree.write(".redo/clean", &format!("{}\n", DUMP.len())); // that of a server without this mark
    assert_eq!(verdict(&tree), Log::Whole);
}

#[test]
fn a_log_that_was_replaced_meanwhile_is_not_marked() {
    let tree = found(Found::Ended);
    let before = log_file(&tree.home).unwrap();
    start(&tree, Step::Compacted);
    let marked = fs::read(tree.at(".redo/server/compacting")).unwrap();
    assert_eq!(begin(&tree.home, &before), Keeping::Whole);
    assert_eq!(
        fs::read(tree.at(".redo/server/compacting")).unwrap(),
        marked
    );
    assert_eq!(verdict(&tree), Log::Whole);
}

#[test]
fn what_is_in_the_way_keeps_the_log_whole() {
    for path in [".redo/log.new", ".redo/server/compacting.new"] {
        for is_link in [false, true] {
            let tree = found(Found::Ended);
            tree.write("mine", "mine");
            if is_link {
                symlink(tree.at("mine"), tree.at(path)).unwrap();
            } else {
                fs::create_dir(tree.at(path)).unwrap();
            }
            let mut marks = marks(&tree);
            assert_eq!(marks.open(), Keeping::Whole, "{path}");
            assert_eq!(marks.log(), Log::Whole, "{path}");
            marks.begin().unwrap();
            assert!(tree.at(path).symlink_metadata().is_ok(), "{path}");
            assert_eq!(fs::read_to_string(tree.at("mine")).unwrap(), "mine");
        }
    }
}

#[test]
fn a_new_log_of_somebody_else_is_not_removed() {
    let tree = found(Found::Ended);
    tree.write(".redo/log.new", "somebody's");
    let mut marks = marks(&tree);
    assert_eq!(marks.open(), Keeping::Whole);
    assert!(!tree.at(".redo/server/compacting").exists());
    marks.begin().unwrap();
    let text = fs::read_to_string(tree.at(".redo/log.new")).unwrap();
    assert_eq!(text, "somebody's");
}

#[test]
fn a_new_log_that_a_start_has_left_is_removed() {
    for left in ["redodb-log 2\nstate 9", "\0\0\0"] {
        for is_room in [true, false] {
            let tree = found(Found::Ended);
            start(&tree, Step::Marked);
            tree.write(".redo/log.new", left); // zeros can come from a loss of power
            if !is_room {
                fs::create_dir(tree.at(".redo/server/compacting.new")).unwrap();
            }
            let mut marks = marks(&tree);
            assert_eq!(marks.open() == Keeping::Compacting, is_room);
            marks.begin().unwrap(); // redodb-live has left it, since it is no beginning of the dump
            assert_eq!(new_log(&tree), b"", "{left:?} {is_room}");
        }
    }
}

#[test]
fn a_mark_that_is_not_whole_is_none() {
    let tree = found(Found::Ended);
    start(&tree, Step::Compacted);
    let mark = fs::read_to_string(tree.at(".redo/server/compacting")).unwrap();
    let numbers = mark.trim_end();
    let (former, _) = numbers.rsplit_once(' ').unwrap();
    for torn in [
        "",
        numbers,
        "a b c d\n",
        &format!("{former}\n"),
        &format!("{numbers} 1\n"),
    ] {
        tree.write(".redo/server/compacting", torn);
        assert_eq!(verdict(&tree), Log::Other, "{torn:?}");
    }
    tree.write(".redo/server/compacting", &mark);
    assert_eq!(verdict(&tree), Log::Whole);
}

#[test]
fn what_is_no_dump_has_no_length() {
    let tree = Tree::new();
    let others = [
        "",
        "redodb-log 1\nstate 1 4 0\na 1\n",
        "redodb-log 2\n",
        "redodb-log 2\nstate 1 4 0",
        "redodb-log 2\nstate 1 4\na 1\n",
        "redodb-log 2\nstate 1 4 0 0\na 1\n",
        "redodb-log 2\nstate 1 -4 0\na 1\n",
        "redodb-log 2\nstate 1 18446744073709551615 0\na 1\n",
    ];
    for other in others {
        tree.write(".redo/log", other);
        assert_eq!(length_of_dump(&tree.home), None, "{other:?}");
    }
    tree.write(".redo/log", DUMP);
    assert_eq!(length_of_dump(&tree.home), Some(DUMP.len() as u64));
}

#[test]
fn a_damaged_log_is_not_being_compacted() {
    let tree = found(Found::Ended);
    let mut marks = marks(&tree);
    assert_eq!(marks.open(), Keeping::Compacting);
    marks.give_up();
    compact(&tree); // by a call of somebody's
    assert_eq!(verdict(&tree), Log::Other);
}
