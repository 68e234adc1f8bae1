//! Runs that are killed at any moment: targets are whole, and the next run removes what is left.

mod common;

use std::fs;
use std::time::Duration;

use common::{ended, until, Tree};

const KILLS: u64 = 40;
/// So long a run takes about, in microseconds.
const LONGEST: u64 = 120_000;
const FILE: &str = "cat in in >\"$3\"\n";
const FOLDER: &str = "mkdir -p \"$3/sub\"\nfor i in 1 2 3 4 5; do cp in \"$3/sub/$i\"; done\n";

/// Returns numbers that look like random ones.
fn draw(seed: &mut u64) -> u64 {
    *seed ^= *seed << 13;
    *seed ^= *seed >> 7;
    *seed ^= *seed << 17;
    *seed
}

/// Says whether a file has one text alone in its lines.
fn is_whole(text: &str) -> bool {
    text.lines().all(|line| Some(line) == text.lines().next())
}

fn check(tree: &Tree) {
    for number in 0..6 {
        let text = tree.read(&format!("{number}.t"));
        assert!(is_whole(&text), "{number}.t is mixed");
    }
    if tree.has("gen") {
        let names = fs::read_dir(tree.at("gen/sub")).unwrap().flatten();
        let texts: Vec<String> = names
            .map(|name| fs::read_to_string(name.path()).unwrap())
            .collect();
        assert_eq!(texts.len(), 5);
        assert!(
            texts.iter().all(|text| *text == texts[0] && is_whole(text)),
            "gen is mixed"
        );
    }
}

#[test]
fn killed_runs_leave_whole_targets_and_nothing_else() {
    let tree = Tree::new();
    tree.write("default.t.do", FILE);
    tree.write("gen.do", FOLDER);
    let mut seed = u64::from(std::process::id()) << 20 | 1;
    println!("the seed is {seed}");
    for kill in 0..KILLS {
        tree.write(
            "in",
            &format!("{kill}\n").repeat(1 + draw(&mut seed) as usize % 2000),
        );
        let grant = format!("--grant={}", 2 * kill + 1);
        let targets = [
            "-j4", &grant, "0.t", "1.t", "2.t", "gen", "3.t", "4.t", "5.t",
        ];
        let mut run = tree.start(&targets);
        std::thread::sleep(Duration::from_micros(draw(&mut seed) % LONGEST));
        run.kill().unwrap();
        ended(&mut run);
        let next = tree.run(&[&format!("--grant={}", 2 * kill + 2), "0.t"]);
        assert_eq!(
            (next.status, next.errors.as_str()),
            (Some(0), "redo  0.t\n")
        );
        assert_eq!(tree.left_over(), Vec::<String>::new());
        check(&tree);
    }
    until("all scripts are dead", || tree.scripts().is_empty());
}
