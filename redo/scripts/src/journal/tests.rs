use super::*;
use crate::scratch::Scratch;
use redo_files::trust::Trust;
use std::fs;

struct Tree {
    scratch: Scratch,
    home: Home,
}

impl Tree {
    fn new() -> Tree {
        let scratch = Scratch::new();
        let home = Home::new(&scratch.top(), &Trust::of_process());
        home.make().unwrap();
        Tree { scratch, home }
    }

    /// Leaves a journal with this text, as a run that was killed does.
    fn dead_run(&self, text: &str) {
        self.home.open_folder(RUN, Some(RIGHTS)).unwrap();
        self.scratch
            .file(".redo/run/4000000.builds", text.as_bytes());
    }

    fn runs(&self) -> Vec<Vec<u8>> {
        names_in(&self.scratch.path(".redo/run")).unwrap()
    }
}

fn build(grant: u64, name: &str, group: Option<i32>) -> Unfinished {
    Unfinished {
        grant,
        name: name.as_bytes().to_vec(),
        group,
    }
}

#[test]
fn a_journal_has_what_a_run_builds() {
    let tree = Tree::new();
    let mut journal = Journal::take(&tree.home).unwrap();
    journal.begun(b"x", 3);
    journal.begun(b"y", 4);
    journal.ended(b"x", 3);
    let number = std::process::id();
    assert!(String::from_utf8_lossy(journal.path()).contains(&format!("/.redo/run/{number}")));
    let file = joined(&[&journal.name, BUILDS]);
    let text = tree.home.read(&paths::join(RUN, &file)).unwrap();
    assert_eq!(text, b"+ 3 x\n+ 4 y\n- 3 x\n");
    assert!(is_built_now(&tree.home, b"y") && !is_built_now(&tree.home, b"x"));
    drop(journal);
    assert_eq!(tree.runs(), Vec::<Vec<u8>>::new());
    assert!(!is_built_now(&tree.home, b"y"));
}

#[test]
fn two_runs_of_one_number_have_two_places() {
    let tree = Tree::new();
    let one = Journal::take(&tree.home).unwrap();
    let other = Journal::take(&tree.home).unwrap();
    assert_ne!(one.path(), other.path());
    assert_eq!(tree.runs().len(), 2);
}

#[test]
fn what_a_killed_run_left_is_removed() {
    let tree = Tree::new();
    tree.dead_run("+ 1 x\n+ 2 d/y\n- 1 x\n+ 7 z\n- 7 z\n");
    let outputs = Outputs::of(&tree.scratch.path("d/y"), 2);
    for path in [&outputs.third, &outputs.standard] {
        fs::write(crate::text::path(path), "left").unwrap();
    }
    tree.scratch.folder("d");
    tree.scratch.file("d/y.redo.2.tmp", b"left");
    for kept in ["x.redo.1.tmp", "d/y.redo.3.tmp", "z.redo.7.tmp", "d/y"] {
        tree.scratch.file(kept, b"precious");
    }
    assert_eq!(clear(&tree.home).unwrap(), Vec::<Vec<u8>>::new());
    assert_eq!(outputs.there(), None);
    assert_eq!(
        names_in(&tree.scratch.path("d")).unwrap(),
        [b"y".to_vec(), b"y.redo.3.tmp".to_vec()]
    );
    assert!(tree.scratch.at("x.redo.1.tmp").exists() && tree.scratch.at("z.redo.7.tmp").exists());
    assert_eq!(tree.runs(), Vec::<Vec<u8>>::new());
}

#[test]
fn what_a_run_that_goes_on_builds_stays() {
    let tree = Tree::new();
    let mut journal = Journal::take(&tree.home).unwrap();
    journal.begun(b"x", 1);
    tree.scratch.file("x.redo.1.tmp", b"now");
    clear(&tree.home).unwrap();
    assert!(tree.scratch.at("x.redo.1.tmp").exists());
    assert_eq!(tree.runs().len(), 1);
}

#[test]
fn a_former_folder_that_waits_aside_is_removed_if_it_is_known() {
    let tree = Tree::new();
    tree.dead_run("+ 1 gen\n+ 1 other\n");
    tree.scratch.folder("gen.redo.1.old");
    tree.scratch.folder("other.redo.1.old");
    tree.scratch.file("other.redo.1.old/notes", b"precious");
    let manifest = Manifest::new(&tree.home, b"gen", b"gen");
    manifest
        .write(&[(b"folder".to_vec(), b".".to_vec())].into())
        .unwrap();
    let said = clear(&tree.home).unwrap();
    assert!(!tree.scratch.at("gen.redo.1.old").exists());
    assert!(tree.scratch.at("other.redo.1.old/notes").exists());
    assert_eq!(said.len(), 1);
    assert!(said[0].starts_with(b"other: ") && said[0].ends_with(b"other.redo.1.old"));
}

#[test]
fn a_journal_that_is_none_names_no_build() {
    assert_eq!(unfinished(b"+ 1 x\n+ 2"), [build(1, "x", None)]);
    let text = b"+ 1 x\n@ 1 x 77\n+ -1 y\n+ 18446744073709551616 z\n* 1 w\n+ 2 v w\n\n";
    assert_eq!(unfinished(text), [build(1, "x", Some(77))]);
    let tree = Tree::new();
    tree.dead_run("+ 1 ../../../etc\n+ 1 /etc/x\n+ 1 //always\n\0\n");
    clear(&tree.home).unwrap();
}

#[test]
fn a_journal_that_is_a_link_is_not_read_but_named() {
    let tree = Tree::new();
    tree.home.open_folder(RUN, Some(RIGHTS)).unwrap();
    tree.scratch.file("mine", b"+ 1 x\n");
    tree.scratch.file("x.redo.1.tmp", b"precious");
    tree.scratch.link("../../mine", ".redo/run/1.builds");
    let error = clear(&tree.home).unwrap_err().text();
    assert!(error
        .windows(b"1.builds is a link".len())
        .any(|part| part == b"1.builds is a link"));
    assert!(tree.scratch.at("x.redo.1.tmp").exists() && tree.scratch.at("mine").exists());
}
