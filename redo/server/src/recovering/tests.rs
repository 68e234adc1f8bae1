use std::fs;
use std::os::unix::fs::symlink;

use super::*;
use crate::scratch::{built, texts, Tree, ONE, TWO};

/// What is told to a database that has these lines.
fn told(tree: &Tree, log: Log, lines: &[String]) -> Vec<String> {
    let lines: Vec<&str> = lines.iter().map(String::as_str).collect();
    let mut known = tree.known(&lines);
    texts(&commands(&mut known, log, &tree.home))
}

/// The commands after which a target has failed.
fn lost(target: &str) -> [String; 4] {
    ["lock", "start", "failed", "unlock"].map(|word| format!("{word} {target}"))
}

#[test]
fn nothing_is_told_if_the_log_is_whole() {
    let tree = Tree::new();
    tree.write("x", "2");
    tree.write("y", "2");
    tree.write(".redo/logs/y", "\x1etarget y 1\n");
    assert!(told(&tree, Log::Whole, &built("x", ONE)).is_empty());
}

#[test]
fn a_target_that_differs_is_lost_with_the_end_of_the_log() {
    let tree = Tree::new();
    let lines = [
        built("same", ONE),
        built("differs", ONE),
        built("gone", ONE),
    ]
    .concat();
    tree.write("same", "1");
    tree.write("differs", "2");
    assert_eq!(told(&tree, Log::Cut, &lines), lost("differs"));
    assert!(told(&tree, Log::Other, &lines).is_empty());
}

#[test]
fn a_target_that_was_known_to_be_edited_is_so_still() {
    let tree = Tree::new();
    tree.write("x", "2");
    let mut lines = built("x", ONE).to_vec();
    lines.push(format!("file x {TWO} => ok"));
    assert!(told(&tree, Log::Cut, &lines).is_empty());
    tree.write("x", "3");
    assert_eq!(told(&tree, Log::Cut, &lines), lost("x"));
}

#[test]
fn a_target_that_failed_or_was_building_is_left() {
    let tree = Tree::new();
    tree.write("x", "2");
    let mut lines = built("x", ONE).to_vec();
    lines.push("start x => ok".to_owned());
    assert!(told(&tree, Log::Cut, &lines).is_empty());
    lines.push("failed x => ok".to_owned());
    assert!(told(&tree, Log::Cut, &lines).is_empty());
}

#[test]
fn what_failed_builds_left_is_forgotten_with_the_end_of_the_log() {
    let tree = Tree::new();
    let lines = [
        "file //left/x 1 => ok",
        "file //left/y 1 => ok",
        "gone //left/y => ok",
    ];
    let lines = lines.map(str::to_owned);
    assert_eq!(told(&tree, Log::Cut, &lines), ["gone //left/x"]);
    assert!(told(&tree, Log::Other, &lines).is_empty());
}

#[test]
fn a_target_that_has_a_build_log_alone_is_lost_or_edited() {
    let tree = Tree::new();
    tree.write(".redo/logs/x", "\x1etarget a%20b 1\nwhat it said\n");
    assert!(told(&tree, Log::Cut, &[]).is_empty());
    assert!(told(&tree, Log::Other, &[]).is_empty());
    tree.write("a b", "1");
    assert_eq!(told(&tree, Log::Cut, &[]), lost("a%20b"));
    let edited = ["lock a%20b", "start a%20b", "done a%20b -", "unlock a%20b"];
    assert_eq!(told(&tree, Log::Other, &[]), edited);
    assert!(told(&tree, Log::Other, &built("a%20b", ONE)).is_empty());
}

#[test]
fn what_is_no_build_log_says_nothing() {
    let tree = Tree::new();
    tree.write("a", "1");
    let heads = [
        "\x1etarget",
        "\x1etarget ",
        "\x1etarget  ",
        "\x1etarget %zz 1",
        "\x1etarget . 1",
    ];
    for head in heads.iter().chain(&[
        "",
        "target a 1",
        "\n\x1etarget a 1",
        "\x1etarget //always 1",
    ]) {
        tree.write(".redo/logs/x", &format!("{head}\n"));
        assert!(told(&tree, Log::Cut, &[]).is_empty(), "{head:?}");
    }
    tree.remove(".redo/logs/x");
    tree.write("head", "\x1etarget a 1\n");
    symlink("../../head", tree.at(".redo/logs/x")).unwrap();
    assert!(told(&tree, Log::Cut, &[]).is_empty());
    tree.remove(".redo/logs/x");
    fs::remove_dir(tree.at(".redo/logs")).unwrap();
    assert!(told(&tree, Log::Cut, &[]).is_empty());
}
