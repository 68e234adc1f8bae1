//! Small trees, built by the machine of a server. Expected values are those of docs/REDO.md.

mod common;

use common::run::{Playing, Ran};
use common::Tree;
use redo_wire::Program;

/// `all` needs `a` and `b`, each of which is its source.
fn tree() -> Tree {
    let tree = Tree::new();
    tree.write("all.do", "ifchange a b\ncat a b");
    tree.write("default.do", "ifcreate none\nifchange src\ncat src");
    tree.write("src", "1");
    tree
}

fn nothing() -> Ran {
    Ran {
        right: Some(true),
        ..Ran::default()
    }
}

fn built(scripts: &[&str]) -> Ran {
    Ran {
        right: Some(true),
        scripts: scripts.iter().map(|script| script.to_string()).collect(),
        ..Ran::default()
    }
}

fn failed(scripts: &[&str], said: &[&str]) -> Ran {
    Ran {
        right: Some(false),
        said: said.iter().map(|line| line.to_string()).collect(),
        ..built(scripts)
    }
}

#[test]
fn a_tree_is_built_and_then_nothing_is_to_be_done() {
    let tree = tree();
    assert_eq!(tree.ifchange(&["all"]), built(&["all", "a", "b"]));
    assert_eq!(tree.read("all"), "11");
    assert_eq!(tree.ifchange(&["all"]), nothing());
    assert_eq!(tree.ifchange(&["all", "src"]), nothing());
    assert_eq!(tree.redo(&[]), built(&["all"]));
}

#[test]
fn an_edit_has_that_built_which_needs_it() {
    let tree = tree();
    tree.write("b.do", "ifchange other\ncat other");
    tree.write("other", "2");
    assert_eq!(tree.ifchange(&["all"]), built(&["all", "a", "b"]));
    tree.write("src", "3");
    assert_eq!(tree.ask(Program::Ood, &[]), ("a\nall\n".to_owned(), 0));
    let why = "all <- a <- src changed\n".to_owned();
    assert_eq!(tree.ask(Program::Why, &["all"]), (why, 0));
    assert_eq!(tree.ifchange(&["all"]), built(&["a", "all"]));
    assert_eq!(tree.read("all"), "32");
    assert_eq!(tree.ifchange(&["all"]), nothing());
}

#[test]
fn the_same_content_builds_nothing_above_it() {
    let tree = tree();
    tree.write("default.do", "ifchange src\necho same");
    assert_eq!(tree.ifchange(&["all"]), built(&["all", "a", "b"]));
    tree.write("src", "3");
    assert_eq!(tree.ifchange(&["all"]), built(&["a", "b"]));
    assert_eq!(tree.ifchange(&["all"]), nothing());
}

#[test]
fn a_failure_is_told_and_tried_again() {
    let tree = tree();
    tree.write("b.do", "ifchange src\nfail");
    assert_eq!(tree.ifchange(&["all"]), failed(&["all", "a", "b"], &[]));
    assert_eq!(tree.ifchange(&["all"]), failed(&["all", "b"], &[]));
    tree.remove("b.do");
    assert_eq!(tree.ifchange(&["all"]), built(&["all", "b"]));
}

#[test]
fn what_has_no_rule_is_named() {
    let tree = Tree::new();
    tree.write("all.do", "ifchange none");
    let said = ["script: there is no rule to make none"];
    assert_eq!(tree.ifchange(&["all"]), failed(&["all"], &said));
    let said = ["there is no rule to make none"];
    assert_eq!(tree.redo(&["none"]), failed(&[], &said));
}

#[test]
fn a_ring_is_named() {
    let tree = Tree::new();
    for (target, need) in [("a", "b"), ("b", "c"), ("c", "a")] {
        tree.write(&format!("{target}.do"), &format!("ifchange {need}"));
    }
    let said = ["script: these need each other: a -> b -> c -> a"];
    assert_eq!(tree.ifchange(&["a"]), failed(&["a", "b", "c"], &said));
}

#[test]
fn an_edited_target_is_left_and_warned_of() {
    let tree = tree();
    tree.ifchange(&["all"]);
    tree.write("a", "by hand ");
    assert_eq!(
        tree.ask(Program::Targets, &["--edited"]),
        ("a\n".to_owned(), 0)
    );
    let ran = tree.ifchange(&["all"]);
    let said = "a was changed by hand: it stays as it is";
    assert_eq!(
        (ran.right, ran.scripts),
        (Some(true), vec!["all".to_owned()])
    );
    assert!(
        ran.said.iter().any(|line| line.ends_with(said)),
        "{:?}",
        ran.said
    );
    assert_eq!(tree.read("all"), "by hand 1");
    let ran = tree.ifchange(&["all"]);
    assert_eq!((ran.scripts, ran.said), (vec![], vec![said.to_owned()]));
    assert_eq!(tree.redo(&["--overwrite", "a"]), built(&["a"]));
    assert_eq!(tree.ifchange(&["all"]), built(&["all"]));
}

#[test]
fn an_edit_right_after_the_build_is_one() {
    let tree = tree();
    let run = Playing::new(&tree).edited_after("a");
    run.run(tree.call(Program::Redo, &["a"], None));
    assert_eq!(
        tree.ask(Program::Targets, &["--edited"]),
        ("a\n".to_owned(), 0)
    );
    tree.write("src", "2");
    tree.ifchange(&["a"]);
    assert_eq!(tree.read("a"), "by hand");
}

#[test]
fn a_run_that_is_killed_leaves_a_failed_target() {
    let tree = tree();
    let run = Playing::new(&tree).killed_at("b");
    run.run(tree.call(Program::IfChange, &["all"], None));
    let why = || tree.ask(Program::Why, &["b"]).0;
    let changed = (0..1000).map(|_| why()).find(|why| why != "b building\n");
    assert_eq!(changed.as_deref(), Some("b failed\n"));
    assert_eq!(tree.ifchange(&["all"]), built(&["all", "b"]));
}

#[test]
fn two_runs_of_a_tree_build_each_target_once() {
    let tree = tree();
    tree.write("default.do", "ifchange src\nwait go\ncat src");
    let both = std::thread::scope(|scope| {
        let runs = [0, 1].map(|_| scope.spawn(|| tree.ifchange(&["all"])));
        tree.let_time_pass();
        tree.write("go", "");
        runs.map(|run| run.join().unwrap())
    });
    assert!(both.iter().all(|ran| ran.right == Some(true)), "{both:?}");
    let mut scripts = both.map(|ran| ran.scripts).concat();
    scripts.sort_unstable();
    assert_eq!(scripts, ["a", "all", "b"]);
}

#[test]
fn a_run_has_as_many_scripts_at_once_as_it_has_slots() {
    let tree = Tree::new();
    tree.write("all.do", "ifchange a b");
    tree.write("a.do", "edit a.runs 1\nwait b.runs\necho a");
    tree.write("b.do", "edit b.runs 1\nwait a.runs\necho b");
    let run = Playing::new(&tree).jobs(2);
    let ran = run.run(tree.call(Program::Redo, &[], None));
    assert_eq!(ran, built(&["all", "a", "b"]));
}

#[test]
fn a_script_says_what_it_depends_on() {
    let tree = Tree::new();
    tree.write("t.do", "ifcreate new\necho t");
    tree.write("d.do", "always\nstamp x\necho d");
    tree.write("u.do", "ifchange d\necho u");
    assert_eq!(tree.ifchange(&["t", "u"]), built(&["t", "u", "d"]));
    assert_eq!(tree.ifchange(&["t"]), nothing());
    assert_eq!(tree.ifchange(&["u"]), built(&["d"]));
    tree.write("new", "");
    let why = tree.ask(Program::Why, &["--json", "t"]).0;
    let wanted = "{\"target\": \"t\", \"reason\": \"appeared\", \"chain\": [\"t\", \"new\"]}\n";
    assert_eq!(why, wanted);
    let ran = tree.ifchange(&["t"]);
    assert_eq!(ran.right, Some(false));
    assert_eq!(ran.errors, ["redo-ifcreate: new is there already"]);
}

#[test]
fn a_target_that_needs_itself_is_told_so() {
    let tree = Tree::new();
    tree.write("t.do", "ifchange t");
    let ran = tree.ifchange(&["t"]);
    assert_eq!(ran.right, Some(false));
    assert_eq!(ran.errors, ["redo-ifchange: t needs itself"]);
}

#[test]
fn a_source_that_changes_during_the_build_has_it_done_once_more() {
    let tree = Tree::new();
    tree.write("t.do", "ifchange src\nedit src 2\necho t\nifchange src");
    tree.write("src", "1");
    assert_eq!(tree.ifchange(&["t"]), built(&["t"]));
    assert_eq!(tree.ifchange(&["t"]), built(&["t"]));
}

#[test]
fn a_late_name_has_it_done_once_more() {
    let tree = Tree::new();
    tree.write("src", "1");
    tree.write("t.do", "edit src 2\nifchange src\necho t");
    tree.let_time_pass();
    assert_eq!(tree.ifchange(&["t"]), built(&["t"]));
    let doubtful = "t changed while it was built\n".to_owned();
    assert_eq!(tree.ask(Program::Why, &["t"]), (doubtful, 0));
    tree.write("t.do", "ifchange src\necho t");
    tree.let_time_pass();
    assert_eq!(tree.ifchange(&["t"]), built(&["t"]));
    assert_eq!(tree.ifchange(&["t"]), nothing());
}

#[test]
fn a_script_inherits_from_who_asks() {
    let tree = tree();
    let run = Playing::new(&tree);
    run.run(tree.call(Program::IfChange, &["all"], None));
    let inherited = run.inherited();
    assert_eq!(inherited["all"], None);
    let environment = &inherited["a"].as_ref().unwrap().environment;
    assert_eq!(environment, &[b"ASKER=all".to_vec()]);
}

#[test]
fn a_rule_that_cannot_be_run_is_named() {
    let tree = Tree::new();
    tree.write("t.do/x", "");
    let ran = tree.redo(&["t"]);
    assert_eq!(
        (ran.right, ran.scripts.len(), ran.said.len()),
        (Some(false), 0, 1)
    );
    assert!(ran.said[0].starts_with("t: "), "{:?}", ran.said);
}

#[test]
fn a_server_that_is_killed_forgets_no_build() {
    let mut tree = tree();
    assert_eq!(tree.ifchange(&["all"]), built(&["all", "a", "b"]));
    tree.restart("-KILL");
    assert_eq!(tree.ifchange(&["all"]), nothing());
    tree.write("src", "2");
    tree.restart("-TERM");
    assert_eq!(tree.ifchange(&["all"]), built(&["a", "b", "all"]));
}

#[test]
fn many_runs_wait_for_their_sessions() {
    let tree = tree();
    let all = std::thread::scope(|scope| {
        let runs: Vec<_> = (0..100)
            .map(|_| scope.spawn(|| tree.ifchange(&["all"])))
            .collect();
        let ended = runs.into_iter().map(|run| run.join().unwrap());
        ended.collect::<Vec<Ran>>()
    });
    assert!(all.iter().all(|ran| ran.right == Some(true)));
    let scripts: usize = all.iter().map(|ran| ran.scripts.len()).sum();
    assert_eq!(scripts, 3);
}
