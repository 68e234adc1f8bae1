use redo_core::Digest;
use redo_files::key::Time;

use super::*;
use crate::conversation::Told;
use crate::scratch::{built, texts, Tree, ONE, TWO};
use crate::wire::Fault;

fn learn(known: &mut Known, line: &str) {
    known.learn(&Told::parse(format!("1 {line}").as_bytes()));
}

fn names(names: &[&str]) -> Vec<Vec<u8>> {
    names.iter().map(|name| name.as_bytes().to_vec()).collect()
}

/// What is known after the lines of builds, each with its stamp, and more lines.
fn known(tree: &Tree, builds: &[(&str, &str)], more: &[&str]) -> Known {
    let built: Vec<String> = builds
        .iter()
        .flat_map(|(name, stamp)| built(name, stamp))
        .collect();
    let lines: Vec<&str> = built
        .iter()
        .map(String::as_str)
        .chain(more.iter().copied())
        .collect();
    tree.known(&lines)
}

#[test]
fn what_the_last_build_made_is_known() {
    let tree = Tree::new();
    let more = [
        "file a 5 => ok",
        "start b => ok",
        "start c => ok",
        "failed c => ok",
    ];
    let known = known(&tree, &[("a", ONE), ("b", "-")], &more);
    assert_eq!(known.made(b"a"), ONE);
    for name in [b"b", b"c", b"d"] {
        assert_eq!(known.made(name), "-");
    }
}

#[test]
fn a_look_at_all_reports_what_differs_in_the_order_of_the_names() {
    let tree = Tree::new();
    let same = format!("file same {ONE} => ok");
    let lines = [
        &same,
        "file changed 5 => ok",
        "file gone 5 => ok",
        "gone new => ok",
    ];
    let mut known = tree.known(&lines);
    for name in ["same", "changed", "new"] {
        tree.write(name, "1");
    }
    let wanted = [
        format!("file changed {ONE}"),
        "gone gone".to_owned(),
        format!("file new {ONE}"),
    ];
    assert_eq!(texts(&known.all_differing()), wanted);
    for line in [
        format!("file changed {ONE} => ok"),
        "gone gone => ok".to_owned(),
    ] {
        learn(&mut known, &line);
    }
    assert_eq!(texts(&known.all_differing()), [format!("file new {ONE}")]);
}

#[test]
fn a_look_is_at_each_name_that_was_spoken_of() {
    let tree = Tree::new();
    let mut known = tree.known(&[]);
    let lines = [
        "lock t => granted 1",
        "ifchange t dep => stale dep",
        "ifcreate t created => refused exists created",
        "lock none",
        "unlock unlocked => refused not-locked",
    ];
    for line in lines {
        learn(&mut known, line);
    }
    for name in ["t", "dep", "created", "none", "unlocked"] {
        tree.write(name, "1");
    }
    let wanted = ["t", "dep", "created"].map(|name| format!("file {name} {ONE}"));
    assert_eq!(texts(&known.all_differing()), wanted);
}

#[test]
fn a_look_at_all_leaves_what_is_building_and_what_no_path_has() {
    let tree = Tree::new();
    let lines = [
        "start t => ok",
        "file // 1 => ok",
        "file % 1 => ok",
        "file //edited/% 1 => ok",
    ];
    let mut known = tree.known(&lines);
    tree.write("t", "1");
    assert!(known.all_differing().is_empty());
    learn(&mut known, "failed t => ok");
    assert_eq!(texts(&known.all_differing()), [format!("file t {ONE}")]);
}

#[test]
fn a_look_at_some_names_is_at_each_once() {
    let tree = Tree::new();
    tree.write("a b", "1");
    let mut known = tree.known(&[]);
    let found = known
        .differing(&names(&["a%20b", "none", "a%20b"]))
        .unwrap();
    assert_eq!(texts(&found), [format!("file a%20b {ONE}")]);
    for bad in ["#x", "-", "%", "%2d", "x%2Fy", ""] {
        assert_eq!(
            known.differing(&names(&["a%20b", bad])),
            Err(Fault::BadName)
        );
    }
}

#[test]
fn a_target_is_edited_if_no_build_left_its_file() {
    let tree = Tree::new();
    let builds = [("a", ONE), ("b", ONE), ("c", "-"), ("d", ONE), ("e", ONE)];
    let known = known(
        &tree,
        &builds,
        &["file b 5 => ok", "file c 5 => ok", "gone d => ok"],
    );
    assert_eq!(texts(&known.edited(&[])), ["b", "c"]);
    assert_eq!(texts(&known.edited(&names(&["c", "a", "none"]))), ["c"]);
}

#[test]
fn what_a_failed_build_left_is_no_edit() {
    let tree = Tree::new();
    let more = ["start a => ok", "failed a => ok", "file a 5 => ok"];
    let mut known = known(&tree, &[("a", ONE)], &more);
    assert!(known.edited(&[]).is_empty());
    learn(&mut known, "file //left/a 5 => ok");
    assert!(known.edited(&[]).is_empty());
    learn(&mut known, "file //left/a 6 => ok");
    assert_eq!(texts(&known.edited(&[])), ["a"]);
    learn(&mut known, &format!("file a {ONE} => ok"));
    assert!(known.edited(&[]).is_empty());
}

#[test]
fn the_content_of_an_edited_target_is_looked_at_too() {
    let tree = Tree::new();
    tree.write("a", "2");
    let mut known = known(&tree, &[("a", ONE)], &["gone //edited/a => ok"]);
    let wanted = [format!("file a {TWO}"), format!("file //edited/a {TWO}")];
    assert_eq!(texts(&known.all_differing()), wanted);
    let found = known.differing(&names(&["none"])).unwrap();
    assert_eq!(texts(&found), [format!("file //edited/a {TWO}")]);
}

#[test]
fn files_that_changed_late_and_are_no_targets_are_told() {
    let tree = Tree::new();
    let known = known(&tree, &[("t", ONE)], &[]);
    for name in ["a", "t"] {
        tree.write(name, "1");
    }
    let asked = names(&["a", "t", "none", "//always", "%"]);
    assert_eq!(texts(&known.late(&asked, Time::from_nanoseconds(0))), ["a"]);
    let later = Time::from_nanoseconds(i128::MAX);
    assert!(known.late(&asked, later).is_empty());
}

#[test]
fn refused_commands_tell_nothing_but_names() {
    let tree = Tree::new();
    let mut known = tree.known(&[]);
    for line in [
        "done a 1 => refused not-building",
        "start a => refused not-locked",
        "fault worn",
    ] {
        learn(&mut known, line);
    }
    assert!(known.names.number(b"a").is_none());
}

/// What a database answers to `names`, of six words for each name, and what is known then.
fn all_known(tree: &Tree, lines: &[&str]) -> Known {
    let mut known = tree.nothing_known();
    let answer = format!("{} {}", lines.len(), lines.join(" "));
    assert!(known.learn_all(answer.as_bytes()), "{answer}");
    known
}

/// The SHA-1 of the content 61, which is an a, in hexadecimal digits.
const A: &str = "86f7e437faa5a7fce15d1ddcb9eaeaea377667b8";

#[test]
fn a_database_says_at_once_what_its_lines_said() {
    let tree = Tree::new();
    let stamped = format!("stamp s 61 => stamped {A}");
    let more = [
        ["start s => ok", &stamped, "done s - => ok"],
        ["start f => ok", "failed f => ok", "file f 7 => ok"],
        ["start b => ok", "file e 5 => ok", "file //edited/e 5 => ok"],
        ["start n => ok", "done n - => ok", "start n => ok"],
        ["done n - => ok", "file //left/f 6 => ok", "file a 5 => ok"],
    ]
    .concat();
    let by_lines = known(&tree, &[("e", ONE)], &more);
    let words = [
        format!("e 5 built 1 {ONE} -"),
        format!("s - built 1 - {A}"),
        "f 7 failed 0 - -".to_owned(),
        "b - building 0 - -".to_owned(),
        "//edited/e 5 idle 0 - -".to_owned(),
        "n - built 2 - -".to_owned(),
        "//left/f 6 idle 0 - -".to_owned(),
        "a 5 idle 0 - -".to_owned(),
    ];
    let words: Vec<&str> = words.iter().map(String::as_str).collect();
    let mut at_once = all_known(&tree, &words);
    assert_eq!(all(&at_once), all(&by_lines));
    assert_eq!(texts(&at_once.edited(&[])), ["e", "f"]);
    assert_eq!(at_once.edited_targets(), by_lines.edited_targets());
    assert_eq!(at_once.untold_edits(), by_lines.untold_edits());
    let mut by_lines = by_lines;
    assert_eq!(at_once.all_differing(), by_lines.all_differing());
}

/// Each name with what is known of it, stamps and digests as texts.
fn all(known: &Known) -> Vec<(Vec<u8>, String)> {
    let names = known.names.iter();
    names
        .map(|(_, name, facts)| {
            let stamp = facts.stamp.map(|stamp| known.text_of(stamp));
            let made = known.made(name);
            let sum = facts.digest.map(|digest| known.sums.thing(digest));
            let rest = (facts.is_building, facts.has_failed, facts.is_told);
            let builds = (facts.builds, facts.made == Made::Never);
            let text = format!("{stamp:?} {made} {sum:?} {builds:?} {rest:?}");
            (name.to_vec(), text)
        })
        .collect()
}

#[test]
fn what_is_no_answer_about_all_names_is_refused() {
    let tree = Tree::new();
    let wrong = [
        "",
        "x",
        "1",
        "0 ",
        "1 a",
        "2 a - idle 0 - -",
        "0 a - idle 0 - -",
        "1 a - idle 0 - - ",
        "1  - idle 0 - -",
        "1 a  idle 0 - -",
        "1 a - locked 0 - -",
        "1 a - idle -1 - -",
        "1 a - idle 0 - 00",
        "1 a - idle 0 -",
        "fault unknown-command",
    ];
    for answer in wrong {
        let mut known = tree.nothing_known();
        assert!(!known.learn_all(answer.as_bytes()), "{answer:?}");
    }
    assert!(tree.nothing_known().learn_all(b"0"));
}

#[test]
fn a_content_has_one_number_whoever_was_told_it() {
    let tree = Tree::new();
    let mut known = all_known(&tree, &[&format!("s - built 1 - {A}")]);
    let digest = Digest(known.names.facts_of(b"s").unwrap().digest.unwrap().into());
    let target = known.names.number(b"s").unwrap();
    assert_eq!(known.digest_told(target, digest).len(), 20); // nobody knows it
    assert_eq!(known.digest_numbered(b"a"), digest);
    assert_eq!(known.digest_told(target, digest), b"a");
    learn(&mut known, &format!("stamp s 61 => stamped {A}"));
    assert_eq!(known.names.facts(target).digest, Some(digest.0 as u32));
}

#[test]
fn the_content_of_a_file_is_known_from_the_file() {
    let tree = Tree::new();
    tree.write("t", "1");
    let mut before = known(&tree, &[("t", ONE)], &[]);
    let target = before.names.number(b"t").unwrap();
    let stamp = before.look_at(target);
    let digest = before.content_of(stamp).unwrap();
    let told = before.digest_told(target, digest).to_vec();
    let sum: String = before
        .sums
        .thing(digest.0 as u32)
        .unwrap()
        .iter()
        .map(|byte| format!("{byte:02x}"))
        .collect();
    let after = all_known(&tree, &[&format!("t {ONE} built 1 {ONE} {sum}")]);
    let target = after.names.number(b"t").unwrap();
    let digest = Digest(after.names.facts(target).digest.unwrap().into());
    assert_eq!(after.digest_told(target, digest), told);
}

#[test]
fn what_was_told_outlasts_the_server() {
    let tree = Tree::new();
    let stamped = format!("stamp s 61 => stamped {A}");
    let mut before = known(&tree, &[], &["start s => ok", &stamped, "done s - => ok"]);
    before.digest_numbered(b"of no target");
    before.store_told(&tree.home, b"contents").unwrap();
    assert_eq!(std::fs::read(tree.at(".redo/contents")).unwrap(), b"61\n");
    tree.write(".redo/contents", "61\nno digits\n6\n");
    let mut after = tree.nothing_known();
    after.load_told(&tree.home, b"contents");
    assert!(after.learn_all(format!("1 s - built 1 - {A}").as_bytes()));
    let target = after.names.number(b"s").unwrap();
    let digest = Digest(after.names.facts(target).digest.unwrap().into());
    assert_eq!(after.digest_told(target, digest), b"a");
}

#[test]
fn that_nothing_was_told_outlasts_the_server() {
    const NOTHING: &str = "da39a3ee5e6b4b0d3255bfef95601890afd80709";
    let tree = Tree::new();
    let stamped = format!("stamp s - => stamped {NOTHING}");
    let before = known(&tree, &[], &["start s => ok", &stamped, "done s - => ok"]);
    before.store_told(&tree.home, b"contents").unwrap();
    assert_eq!(std::fs::read(tree.at(".redo/contents")).unwrap(), b"-\n");
    let mut after = tree.nothing_known();
    after.load_told(&tree.home, b"contents");
    assert!(after.learn_all(format!("1 s - built 1 - {NOTHING}").as_bytes()));
    let target = after.names.number(b"s").unwrap();
    let digest = Digest(after.names.facts(target).digest.unwrap().into());
    assert_eq!(after.digest_told(target, digest), b"");
}
