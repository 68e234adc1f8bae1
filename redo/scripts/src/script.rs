//! How a `.do` file is called.

use std::fmt;
use std::fs::File;
use std::io::{self, Read};

use redo_files::paths;
use redo_files::rules::Rule;

use crate::text::{cause_of, joined, last_part, shown};

const SHELL: &[u8] = b"/bin/sh";
const LONGEST_FIRST_LINE: u64 = 256;

/// What the shell shows of a script that it runs. It stops at the first command that fails.
#[derive(Clone, Copy, Debug, Default, PartialEq, Eq)]
pub struct ShellFlags {
    /// It prints each line that it reads.
    pub is_verbose: bool,
    /// It prints each command.
    pub traces: bool,
}

/// Why a script can't be run.
#[derive(Debug)]
pub enum ScriptError {
    /// The first line has a NUL after the name of its interpreter.
    Nul {
        script: Vec<u8>,
        interpreter: Vec<u8>,
    },
    /// The script can't be read.
    Unreadable { script: Vec<u8>, cause: io::Error },
    /// The process can't begin; the text says what that failed at.
    Unstarted {
        script: Vec<u8>,
        what: Vec<u8>,
        cause: io::Error,
    },
}

impl fmt::Display for ShellFlags {
    fn fmt(&self, formatter: &mut fmt::Formatter<'_>) -> fmt::Result {
        formatter.write_str(match (self.is_verbose, self.traces) {
            (false, false) => "-e",
            (false, true) => "-ex",
            (true, false) => "-ev",
            (true, true) => "-evx",
        })
    }
}

impl ScriptError {
    /// Returns what is said of it: one line.
    pub fn text(&self) -> Vec<u8> {
        match self {
            ScriptError::Nul {
                script,
                interpreter,
            } => joined(&[
                script.as_slice(),
                b": its first line, ",
                &shown(interpreter),
                b", has a NUL",
            ]),
            ScriptError::Unreadable { script, cause } => {
                joined(&[script.as_slice(), b": ", cause_of(cause).as_bytes()])
            }
            ScriptError::Unstarted {
                script,
                what,
                cause,
            } => {
                let (what, cause) = (shown(what), cause_of(cause));
                joined(&[script.as_slice(), b": ", &what, b": ", cause.as_bytes()])
            }
        }
    }
}

/// Returns the command line of a rule, whose script writes to the path `third`, which is absolute
/// like those of the rule.
pub fn command_line(
    rule: &Rule,
    third: &[u8],
    flags: ShellFlags,
) -> Result<Vec<Vec<u8>>, ScriptError> {
    let script = last_part(&rule.do_file);
    let mut words = interpreter(&rule.do_file, flags)?;
    words.push(if script.starts_with(b"-") {
        joined(&[b"./", script])
    } else {
        script.to_vec()
    });
    words.push(rule.first.clone());
    words.push(rule.second.clone());
    words.push(paths::relative(third, &rule.folder));
    Ok(words)
}

/// Returns the words in front of a script's name: those of its `#!` line, or of sh.
fn interpreter(do_file: &[u8], flags: ShellFlags) -> Result<Vec<Vec<u8>>, ScriptError> {
    let script = shown(last_part(do_file));
    let line = match first_line(do_file) {
        Ok(line) => line,
        Err(cause) => return Err(ScriptError::Unreadable { script, cause }),
    };
    let rest = trimmed(line.strip_prefix(b"#!").unwrap_or_default());
    if !rest.starts_with(b"/") {
        return Ok(vec![SHELL.to_vec(), flags.to_string().into_bytes()]);
    }
    if let Some(interpreter) = before_nul(rest) {
        let interpreter = interpreter.to_vec();
        return Err(ScriptError::Nul {
            script,
            interpreter,
        });
    }
    let end = rest.iter().position(u8::is_ascii_whitespace);
    let (program, argument) = rest.split_at(end.unwrap_or(rest.len()));
    let words = [program, trimmed(argument)];
    let words = words.iter().filter(|word| !word.is_empty());
    Ok(words.map(|word| word.to_vec()).collect())
}

fn first_line(path: &[u8]) -> io::Result<Vec<u8>> {
    let mut beginning = Vec::new();
    let script = File::open(crate::text::path(path))?;
    script
        .take(LONGEST_FIRST_LINE)
        .read_to_end(&mut beginning)?;
    let end = beginning.iter().position(|byte| *byte == b'\n');
    beginning.truncate(end.unwrap_or(beginning.len()));
    Ok(beginning)
}

fn before_nul(line: &[u8]) -> Option<&[u8]> {
    let end = line.iter().position(|byte| *byte == 0)?;
    let first = line[..end].split(u8::is_ascii_whitespace).next();
    Some(first.unwrap_or_default())
}

fn trimmed(text: &[u8]) -> &[u8] {
    let is_kept = |byte: &u8| !byte.is_ascii_whitespace();
    let first = text.iter().position(is_kept).unwrap_or(text.len());
    let end = text
        .iter()
        .rposition(is_kept)
        .map_or(first, |last| last + 1);
    &text[first..end]
}

#[cfg(test)]
mod tests {
    use super::*;
    use crate::scratch::Scratch;

    fn called(name: &str, script: &[u8], flags: ShellFlags) -> Result<Vec<String>, String> {
        let scratch = Scratch::new();
        scratch.file(name, script);
        let rule = Rule {
            do_file: scratch.path(name),
            folder: scratch.top(),
            first: b"d/x.o".to_vec(),
            second: b"d/x".to_vec(),
        };
        let words = command_line(&rule, &scratch.path("d/x.o.redo.1.tmp"), flags);
        let text = |word: Vec<u8>| String::from_utf8(word).unwrap();
        match words {
            Ok(words) => Ok(words.into_iter().map(text).collect()),
            Err(error) => Err(text(error.text())),
        }
    }

    #[test]
    fn a_script_is_run_by_sh() {
        let words = called("default.o.do", b"echo\n", ShellFlags::default());
        let wanted = "/bin/sh -e default.o.do d/x.o d/x d/x.o.redo.1.tmp";
        assert_eq!(words.unwrap().join(" "), wanted);
    }

    #[test]
    fn flags_of_the_shell_are_passed() {
        let flags = ShellFlags {
            is_verbose: true,
            traces: true,
        };
        assert_eq!(called("x.do", b"", flags).unwrap()[1], "-evx");
    }

    #[test]
    fn a_script_names_its_interpreter_and_one_argument() {
        let words = called(
            "x.do",
            b"#! /usr/bin/env  -S python3 -u \n",
            ShellFlags::default(),
        );
        assert_eq!(
            words.unwrap()[..3],
            ["/usr/bin/env", "-S python3 -u", "x.do"]
        );
        let words = called("x.do", b"#!/bin/cat\n", ShellFlags::default()).unwrap();
        assert_eq!(words[..2], ["/bin/cat", "x.do"]);
        let words = called("x.do", b"#!cat\n", ShellFlags::default()).unwrap();
        assert_eq!(words[0], "/bin/sh");
    }

    #[test]
    fn a_script_that_looks_like_an_option_is_a_path() {
        let words = called("-x.do", b"", ShellFlags::default()).unwrap();
        assert_eq!(words[2], "./-x.do");
    }

    #[test]
    fn a_first_line_with_a_nul_is_an_error() {
        let error = called("x.do", b"#!/bin/sh\0x\necho b\n", ShellFlags::default());
        assert_eq!(
            error.unwrap_err(),
            "x.do: its first line, /bin/sh, has a NUL"
        );
    }

    #[test]
    fn a_script_that_is_not_there_is_an_error() {
        let rule = Rule {
            do_file: b"/nowhere/x.do".to_vec(),
            folder: b"/nowhere".to_vec(),
            first: b"x".to_vec(),
            second: b"x".to_vec(),
        };
        let error = command_line(&rule, b"/nowhere/x", ShellFlags::default()).unwrap_err();
        assert_eq!(error.text(), b"x.do: No such file or directory");
    }
}
