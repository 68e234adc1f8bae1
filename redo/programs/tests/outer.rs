//! Programs that users call: what they send, what they print, and their status.

use std::fs;
use std::process::Command;

use redo_wire::{Program, ToProgram};

#[allow(dead_code)]
mod support;
use support::{begun, bytes, ended, finished, run, words, Tree};

const END: ToProgram = ToProgram::End { status: 0 };

fn output(text: &str) -> ToProgram {
    ToProgram::Output(text.as_bytes().to_vec())
}

#[test]
fn each_question_sends_its_words_and_prints_the_answer() {
    let cases = [
        (Program::Ood, ""),
        (Program::Ood, "-0"),
        (Program::Targets, ""),
        (Program::Targets, "--edited -0"),
        (Program::Sources, "-0"),
        (Program::Why, "a b"),
        (Program::Why, "--json -- -a"),
        (Program::Why, "--users --json a"),
    ];
    for (program, text) in cases {
        let tree = Tree::new();
        let status = ToProgram::End { status: 3 };
        let server = tree.serve(vec![vec![output("a\n"), output("b"), status]]);
        let done = run(tree.program(program.name()).args(text.split_whitespace()));
        assert_eq!(done, ended(3, "a\nb", ""));
        let call = server.call();
        assert_eq!((call.program, call.words), (program, words(text)));
        assert_eq!(
            (call.task, call.content, call.folder),
            (None, None, bytes(&tree.0))
        );
    }
}

#[test]
fn a_build_with_nothing_to_do_ends_with_the_status_that_is_told() {
    let cases = [
        (Program::Redo, ""),
        (Program::Redo, "-kj2 x"),
        (Program::IfChange, "x -- -k"),
    ];
    for (program, text) in cases {
        let tree = Tree::new();
        let server = tree.serve(vec![vec![END]]);
        fs::create_dir(tree.path("d")).unwrap();
        let mut command = tree.program(program.name());
        command
            .current_dir(tree.path("d"))
            .args(text.split_whitespace());
        assert_eq!(run(&mut command), ended(0, "", ""));
        let call = server.call();
        assert_eq!((call.program, call.words), (program, words(text)));
        assert_eq!(call.folder, bytes(&tree.path("d")));
    }
}

#[test]
fn a_question_in_a_script_is_asked_as_by_a_user() {
    let tree = Tree::new();
    let server = tree.serve(vec![vec![END]]);
    assert_eq!(
        run(&mut tree.script_program("redo-ood", 5)),
        ended(0, "", "")
    );
    assert_eq!(server.call().task, None);
}

#[test]
fn wrong_words_are_named_and_have_status_2() {
    let tree = Tree::new();
    let cases = [
        ("redo", "-y", "there is no option -y"),
        ("redo", "--why", "there is no option --why"),
        ("redo", "-j", "-j wants a number"),
        ("redo", "-j0", "-j wants a number from 1 to 1000, not 0"),
        ("redo-ifchange", "-k x", "there is no option -k"),
        ("redo-ifcreate", "x", "it is for .do files"),
        ("redo-always", "", "it is for .do files"),
        ("redo-stamp", "", "it is for .do files"),
        ("redo-ood", "x", "it takes no arguments"),
        ("redo-ood", "-0 -0", "there is no option -0"),
        ("redo-targets", "--edited x", "it takes no arguments"),
        ("redo-sources", "--edited", "there is no option --edited"),
        ("redo-why", "--json", "it takes a target"),
        ("redo-whichdo", "a b", "it takes one target"),
        ("redo-whichdo", "", "it takes one target"),
    ];
    for (program, text, wanted) in cases {
        let done = run(tree.program(program).args(text.split_whitespace()));
        let line = format!("{program}: {wanted}; see {program} --help\n");
        assert_eq!(done, ended(2, "", &line));
    }
    assert!(!tree.path(".redo/server").exists());
}

#[test]
fn a_number_of_jobs_in_the_environment_has_to_be_one() {
    let tree = Tree::new();
    let done = run(tree.program("redo").env("REDO_JOBS", "many"));
    let wanted = "redo: REDO_JOBS wants a number from 1 to 1000, not many; see redo --help\n";
    assert_eq!(done, ended(2, "", wanted));
}

#[test]
fn where_nothing_was_built_questions_start_nothing() {
    let tree = Tree::bare();
    for program in ["redo-ood", "redo-targets", "redo-sources"] {
        assert_eq!(run(&mut tree.program(program)), ended(0, "", ""));
    }
    let done = run(tree.program("redo-why").arg("x"));
    let line = "redo-why: nothing was ever built here; see redo-why --help\n";
    assert_eq!(done, ended(2, "", line));
    assert_eq!(fs::read_dir(&tree.0).unwrap().count(), 0);
}

#[test]
fn help_and_version_are_printed_at_once() {
    let tree = Tree::bare();
    for program in Program::ALL {
        let name = program.name();
        for option in ["--help", "-h"] {
            let done = run(tree.script_program(name, 1).arg(option));
            assert_eq!((done.status, done.errors), (0, String::new()));
            assert!(
                done.output.starts_with(&format!("usage: {name}")),
                "{}",
                done.output
            );
        }
        let done = run(tree.program(name).args(["x", "--version", "--help"]));
        assert_eq!(done, ended(0, &format!("{name} (redodb) 0.3.0\n"), ""));
    }
    assert_eq!(fs::read_dir(&tree.0).unwrap().count(), 0);
    let done = run(&mut tree.program("made"));
    assert_eq!(done.status, 2);
    assert!(done
        .errors
        .starts_with("made: it is called redo, redo-ifchange, "));
}

#[test]
fn whichdo_prints_candidates_up_to_the_first_that_is_there() {
    let tree = Tree::new();
    fs::create_dir(tree.path("d")).unwrap();
    let done = run(tree.program("redo-whichdo").arg("d/x.tar.gz"));
    let all = "d/x.tar.gz.do\nd/default.tar.gz.do\nd/default.gz.do\nd/default.do\n\
               default.tar.gz.do\ndefault.gz.do\ndefault.do\n";
    assert_eq!(done, ended(1, all, ""));
    tree.write("default.gz.do", "");
    let mut command = tree.program("redo-whichdo");
    let done = run(command.current_dir(tree.path("d")).arg("x.gz"));
    assert_eq!(
        done,
        ended(
            0,
            "x.gz.do\ndefault.gz.do\ndefault.do\n../default.gz.do\n",
            ""
        )
    );
    fs::create_dir(tree.path("x.do")).unwrap();
    let done = run(tree.program("redo-whichdo").arg("x"));
    let line = format!(
        "redo-whichdo: {} is a folder\n",
        tree.path("x.do").display()
    );
    assert_eq!(done, ended(1, "", &line));
}

#[test]
fn whichdo_needs_no_tree() {
    let tree = Tree::bare();
    tree.write("default.do", "");
    let done = run(tree.program("redo-whichdo").arg("x"));
    assert_eq!(done, ended(0, "x.do\ndefault.do\n", ""));
    assert!(!tree.path(".redo").exists());
}

#[test]
fn nobody_reads_the_answer() {
    let tree = Tree::new();
    let server = tree.serve(vec![vec![output(&"line\n".repeat(100_000)), END]]);
    let mut command = tree.program("redo-ood");
    let mut child = begun(&mut command);
    drop(
        child
            .stdout
            .replace(begun(&mut Command::new("true")).stdout.unwrap()),
    );
    assert_eq!(finished(child), ended(1, "", ""));
    server.calls();
}
