//! What the kernel says of processes, in `/proc`.

use std::fs;
use std::process;

/// The variable that has the number of a script's task.
const TASK: &[u8] = b"REDO_TASK=";

/// A process, as far as it tells itself from others.
#[derive(Clone, Copy, Debug, PartialEq, Eq)]
pub struct Process {
    pub group: i32,
    /// When it began, in ticks of the machine: two that have one number began at other times.
    pub began: u64,
}

impl Process {
    /// Returns a process by its number, if it is there.
    pub fn find(number: i32) -> Option<Process> {
        let text = fs::read(format!("/proc/{number}/stat")).ok()?;
        Process::parse(&text)
    }

    /// Reads a line of `stat`, in which the name of a program may have any bytes.
    fn parse(text: &[u8]) -> Option<Process> {
        let name_end = text.iter().rposition(|byte| *byte == b')')?;
        let rest = std::str::from_utf8(text.get(name_end + 1..)?).ok()?;
        let mut fields = rest.split_ascii_whitespace();
        let group = fields.nth(2)?.parse().ok()?;
        let began = fields.nth(16)?.parse().ok()?;
        Some(Process { group, began })
    }
}

/// A PID namespace, by its number.
#[derive(Clone, Debug, PartialEq, Eq)]
pub struct Namespace(Vec<u8>);

impl Namespace {
    /// Reads the number of a namespace: decimal digits.
    pub fn parse(text: &[u8]) -> Option<Namespace> {
        let is_number = !text.is_empty() && text.iter().all(u8::is_ascii_digit);
        is_number.then(|| Namespace(text.to_vec()))
    }

    /// Returns the namespace of a process.
    pub fn of(number: i32) -> Option<Namespace> {
        let link = fs::read_link(format!("/proc/{number}/ns/pid")).ok()?;
        let text = link.to_str()?.strip_prefix("pid:[")?.strip_suffix(']')?;
        Namespace::parse(text.as_bytes())
    }

    /// Returns that of this process, or None if `/proc` is of another one.
    pub fn own() -> Option<Namespace> {
        let itself = fs::read_link("/proc/self").ok()?;
        let number: u32 = itself.to_str()?.parse().ok()?;
        if number != process::id() {
            return None;
        }
        Namespace::of(i32::try_from(number).ok()?)
    }
}

/// Returns the process groups of those whose environment has a variable, `NAME=VALUE`.
pub fn groups_with(variable: &[u8]) -> Vec<i32> {
    let entries = fs::read_dir("/proc").into_iter().flatten().flatten();
    let numbers = entries.filter_map(|entry| entry.file_name().to_str()?.parse::<i32>().ok());
    numbers
        .filter(|number| has_variable(*number, variable))
        .filter_map(Process::find)
        .map(|process| process.group)
        .collect()
}

/// Returns the process groups of scripts, which have this variable, `NAME=VALUE`, and one of these
/// tasks in their environment.
pub fn groups_of_scripts(variable: &[u8], tasks: &[u64]) -> Vec<i32> {
    let entries = fs::read_dir("/proc").into_iter().flatten().flatten();
    let numbers = entries.filter_map(|entry| entry.file_name().to_str()?.parse::<i32>().ok());
    let scripts = numbers.filter(|number| {
        let environment = fs::read(format!("/proc/{number}/environ")).unwrap_or_default();
        let mut variables = environment.split(|byte| *byte == 0);
        let task = environment.split(|byte| *byte == 0).find_map(task_of);
        task.map_or(false, |task| tasks.contains(&task)) && variables.any(|one| one == variable)
    });
    let found = scripts.filter_map(Process::find);
    found.map(|process| process.group).collect()
}

fn task_of(variable: &[u8]) -> Option<u64> {
    let digits = variable.strip_prefix(TASK)?;
    std::str::from_utf8(digits).ok()?.parse().ok()
}

fn has_variable(number: i32, variable: &[u8]) -> bool {
    match fs::read(format!("/proc/{number}/environ")) {
        Ok(environment) => environment
            .split(|byte| *byte == 0)
            .any(|one| one == variable),
        Err(_) => false,
    }
}

#[cfg(test)]
mod tests {
    use super::*;

    #[test]
    fn a_process_is_read_behind_the_name_of_its_program() {
        let text = b"71 (a) 5 (b)) S 1 72 73 0 -1 4194560 1 2 3 4 5 6 7 8 20 0 1 0 9991 0 0\n";
        let found = Process::parse(text);
        let wanted = Process {
            group: 72,
            began: 9991,
        };
        assert_eq!(found, Some(wanted));
    }

    #[test]
    fn what_is_no_process_is_none() {
        for text in [
            "",
            "71",
            "71 (a",
            "71 (a)",
            "71 (a) S 1 x 3",
            "71 (a) S 1 2 3 4",
        ] {
            assert_eq!(Process::parse(text.as_bytes()), None, "{text}");
        }
        assert_eq!(Process::find(-1), None);
    }

    #[test]
    fn a_namespace_is_a_number() {
        assert!(Namespace::parse(b"4026531836").is_some());
        for text in [&b"-"[..], b"", b"4 5"] {
            assert_eq!(Namespace::parse(text), None);
        }
    }
}
