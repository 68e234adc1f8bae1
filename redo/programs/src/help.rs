//! What `--help` and `--version` print.

use std::process::ExitCode;

use redo_wire::Program;

use crate::failure::FAILED;
use crate::text::print_output;

const COMMON: &str = "
    -h, --help         prints this
    --version          prints the version
";

/// What a program is asked for instead of its work.
#[derive(Clone, Copy, Debug, PartialEq, Eq)]
pub enum Asked {
    Help,
    Version,
}

/// Returns what is asked for first before `--`, if anything is.
pub fn asked(words: &[Vec<u8>]) -> Option<Asked> {
    let options = words.iter().take_while(|word| *word != b"--");
    options.filter_map(|word| asked_by(word)).next()
}

fn asked_by(word: &[u8]) -> Option<Asked> {
    match word {
        b"-h" | b"--help" => Some(Asked::Help),
        b"--version" => Some(Asked::Version),
        _ => None,
    }
}

/// Prints it, and returns the status.
pub fn print(program: Program, asked: Asked) -> ExitCode {
    let text = match asked {
        Asked::Help => help(program),
        Asked::Version => {
            format!(
                "{} (redodb) {}\n",
                program.name(),
                env!("CARGO_PKG_VERSION")
            )
        }
    };
    match print_output(text.as_bytes()) {
        Ok(()) => ExitCode::SUCCESS,
        Err(_) => ExitCode::from(FAILED),
    }
}

fn help(program: Program) -> String {
    let text = about(program);
    let has_options = text.contains("\n    -");
    // options follow each other without an empty line
    let common = if has_options {
        COMMON.trim_start_matches('\n')
    } else {
        COMMON
    };
    [text, common].concat()
}

fn about(program: Program) -> &'static str {
    match program {
        Program::Redo => REDO,
        Program::IfChange => IFCHANGE,
        Program::IfCreate => IFCREATE,
        Program::Always => ALWAYS,
        Program::Stamp => STAMP,
        Program::Ood => OOD,
        Program::Targets => TARGETS,
        Program::Sources => SOURCES,
        Program::Why => WHY,
        Program::WhichDo => WHICHDO,
        Program::Log => LOG,
    }
}

const REDO: &str = "usage: redo [OPTION..] [TARGET..]

Builds each TARGET, or `all` where none is given. What a TARGET needs is built
where it is out of date.

    -j N, --jobs=N     runs N scripts at once; without it, as many as the
                       jobserver of `make` allows, else as many as REDO_JOBS
                       says, or one
    -k, --keep-going   goes on after a failure, as far as can be
    -n, --dry-run      builds nothing, and prints what would be built
    -d, --debug        says what it decides of each target, and why
    --shuffle          builds targets in random order where the order is free
    -x, --xtrace       has sh print each command (sh -ex)
    -v, --verbose      has sh print each line that it reads (sh -ev)
    --overwrite        builds each TARGET also if somebody edited it, or made it
    --no-details       shows the lines of redo alone; logs have the others
    --no-log           lets scripts write to standard error, and keeps no log
    --no-color         prints without colours
    --no-status        shows no line of progress
";

const IFCHANGE: &str = "usage: redo-ifchange TARGET..

In a .do file: builds each TARGET that is out of date, and notes that the
target of the .do file depends on all of them.
Elsewhere: builds each TARGET that is out of date.
";

const IFCREATE: &str = "usage: redo-ifcreate FILE..

In a .do file: notes that its target has to be built again once one of the
FILEs is there. None of them may be there now.
";

const ALWAYS: &str = "usage: redo-always

In a .do file: notes that its target has to be built again in each run.
";

const STAMP: &str = "usage: redo-stamp <FILE

In a .do file: where the bytes of standard input are those of the former
build, what depends on the target isn't out of date by this build.
";

const OOD: &str = "usage: redo-ood [-0]

Prints the targets that are there and out of date, one a line.

    -0                 ends each by a NUL in place of a line feed
";

const TARGETS: &str = "usage: redo-targets [--edited] [-0]

Prints the targets that are there, one a line.

    --edited           prints those that somebody edited, and redo leaves alone
    -0                 ends each by a NUL in place of a line feed
";

const SOURCES: &str = "usage: redo-sources [-0]

Prints the files that targets depend on and that are no targets, one a line.

    -0                 ends each by a NUL in place of a line feed
";

const WHICHDO: &str = "usage: redo-whichdo TARGET

Prints the .do files that would build TARGET in the order in which they are
looked for, up to the first that is there. The status is 0 where there is one,
else 1.
";

const WHY: &str = "usage: redo-why [--json] [--users] TARGET..

Prints of each TARGET why it is out of date, by a shortest chain of what
depends on what.

    --users            prints which targets depend on each TARGET, or source
    --json             prints an object a line: target, reason, chain; with
                       --users: name, built, absent
";

const LOG: &str = "usage: redo-log [OPTION..] TARGET..

Prints the log of the latest build of each TARGET, and in it those of the
builds that it asked for.

    -f, --follow       goes on while the TARGET is built
    -n, --no-recurse   prints the log of the TARGET alone
    -r, --recursive    prints those of the builds that it asked for, too
    -u, --unchanged    prints a line for what it needs and didn't build, too
    --no-details       prints the lines of redo alone
    --no-color         prints without colours
";

#[cfg(test)]
mod tests {
    use super::*;

    #[test]
    fn each_help_begins_with_the_usage_and_has_no_long_line() {
        for program in Program::ALL {
            let text = help(program);
            assert!(text.starts_with(&format!("usage: {}", program.name())));
            assert!(text.ends_with("    --version          prints the version\n"));
            assert!(
                text.lines().all(|line| line.chars().count() <= 80),
                "{text}"
            );
        }
    }

    #[test]
    fn help_names_the_parts_of_each_object() {
        let text = help(Program::Why);
        let words: Vec<&str> = text.split_whitespace().collect();
        let text = words.join(" ");
        assert!(text.contains("prints an object a line: target, reason, chain"));
        assert!(text.contains("with --users: name, built, absent"));
    }

    #[test]
    fn help_is_asked_for_before_two_hyphens() {
        let words = |text: &str| -> Vec<Vec<u8>> {
            text.split(' ')
                .map(|word| word.as_bytes().to_vec())
                .collect()
        };
        assert_eq!(asked(&words("-k x --help --version")), Some(Asked::Help));
        assert_eq!(asked(&words("--version -h")), Some(Asked::Version));
        assert_eq!(asked(&words("-- --help")), None);
        assert_eq!(asked(&words("x help -hk")), None);
    }
}
