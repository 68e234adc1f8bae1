use std::fs;
use std::os::unix::fs::{symlink, MetadataExt};

use super::*;
use crate::scratch::Tree;

/// The marks that a server would find that starts in a boot.
fn marks(tree: &Tree, boot: &str) -> Marks {
    Marks::new(&tree.home, boot.as_bytes())
}

fn verdict(tree: &Tree, boot: &str) -> Log {
    let mut marks = marks(tree, boot);
    marks.open();
    marks.log()
}

/// A tree that has a log.
fn logged() -> Tree {
    let tree = Tree::new();
    tree.write(".redo/log", "log\n");
    tree
}

#[test]
fn a_tree_without_a_log_has_lost_nothing() {
    let tree = Tree::new();
    assert_eq!(verdict(&tree, "this"), Log::Whole);
    tree.write(".redo/log", "");
    assert_eq!(verdict(&tree, "this"), Log::Whole);
}

#[test]
fn a_log_without_marks_may_be_cut() {
    assert_eq!(verdict(&logged(), "this"), Log::Cut);
}

#[test]
fn a_server_that_was_killed_left_the_whole_log_in_this_boot() {
    let tree = logged();
    marks(&tree, "this").begin().unwrap();
    assert_eq!(verdict(&tree, "this"), Log::Whole);
    tree.write(".redo/log", "log\nmore\n");
    assert_eq!(verdict(&tree, "this"), Log::Whole);
    assert_eq!(verdict(&tree, "another"), Log::Cut);
}

#[test]
fn a_server_that_was_killed_left_no_other_log() {
    let tree = logged();
    marks(&tree, "this").begin().unwrap();
    tree.write(".redo/log2", "log\n");
    fs::rename(tree.at(".redo/log2"), tree.at(".redo/log")).unwrap();
    assert_eq!(verdict(&tree, "this"), Log::Cut);
}

#[test]
fn a_server_that_ended_left_the_whole_log_in_each_boot() {
    let tree = logged();
    let ended = marks(&tree, "this");
    ended.begin().unwrap();
    ended.end().unwrap();
    assert_eq!(verdict(&tree, "this"), Log::Whole);
    assert_eq!(verdict(&tree, "another"), Log::Whole);
}

#[test]
fn a_log_of_another_length_is_another() {
    let tree = logged();
    marks(&tree, "this").end().unwrap();
    for content in ["log", "log\nmore\n", ""] {
        tree.write(".redo/log", content);
        assert_eq!(verdict(&tree, "this"), Log::Other, "{content:?}");
    }
    tree.remove(".redo/log");
    assert_eq!(verdict(&tree, "this"), Log::Other);
}

#[test]
fn the_mark_of_the_end_goes_at_the_next_begin() {
    let tree = logged();
    marks(&tree, "this").end().unwrap();
    assert!(tree.at(".redo/clean").exists());
    marks(&tree, "this").begin().unwrap();
    assert!(!tree.at(".redo/clean").exists());
    assert_eq!(verdict(&tree, "another"), Log::Cut);
}

#[test]
fn a_longer_mark_of_a_former_server_is_written_over() {
    let tree = logged();
    marks(&tree, "a-boot-of-a-longer-name").begin().unwrap();
    let file = fs::metadata(tree.at(".redo/server/running")).unwrap().ino();
    marks(&tree, "this").begin().unwrap();
    let running = fs::read_to_string(tree.at(".redo/server/running")).unwrap();
    assert_eq!(running.lines().count(), 1, "{running:?}");
    let same = fs::metadata(tree.at(".redo/server/running")).unwrap().ino();
    assert_eq!(same, file);
    tree.write(".redo/server/running", &(running + "of a longer one\n"));
    assert_eq!(verdict(&tree, "this"), Log::Whole);
}

#[test]
fn a_mark_that_is_not_whole_is_none() {
    let tree = logged();
    for torn in ["", "4", "4 "] {
        tree.write(".redo/clean", torn);
        assert_eq!(verdict(&tree, "this"), Log::Cut, "{torn:?}");
    }
    tree.remove(".redo/clean");
    marks(&tree, "this").begin().unwrap();
    let running = fs::read_to_string(tree.at(".redo/server/running")).unwrap();
    tree.write(".redo/server/running", running.trim_end());
    assert_eq!(verdict(&tree, "this"), Log::Cut);
}

#[test]
fn the_end_without_a_log_is_an_error_and_leaves_no_mark() {
    let tree = Tree::new();
    assert!(marks(&tree, "this").end().is_err());
    assert!(!tree.at(".redo/clean").exists());
}

#[test]
fn links_are_neither_read_nor_followed() {
    let tree = logged();
    tree.write(".redo/mine", "4\n");
    symlink("mine", tree.at(".redo/clean")).unwrap();
    assert_eq!(verdict(&tree, "this"), Log::Cut);
    symlink("mine", tree.at(".redo/clean.new")).unwrap();
    symlink("../mine", tree.at(".redo/server/running")).unwrap();
    let marks = marks(&tree, "this");
    assert!(marks.begin().is_err());
    assert!(marks.end().is_err());
    assert_eq!(fs::read_to_string(tree.at(".redo/mine")).unwrap(), "4\n");
}
