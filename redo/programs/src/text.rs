//! Lines that the programs print.

use std::io::{self, Write};
use std::process::ExitCode;

use redo_wire::Program;

/// The status of a program whose words are wrong.
pub const USAGE: u8 = 2;

/// Returns the part of a path behind its last slash.
pub fn last_part(path: &[u8]) -> &[u8] {
    path.rsplit(|byte| *byte == b'/').next().unwrap_or_default()
}

/// Returns why a call of the kernel failed, in its words.
pub fn cause_of(cause: &io::Error) -> String {
    let text = cause.to_string();
    match text.find(" (os error ") {
        Some(end) => text[..end].to_string(),
        None => text,
    }
}

/// Prints a line to standard error. If nobody reads it, it is lost.
pub fn print_error(line: &[u8]) {
    let _ = io::stderr().write_all(&[line, b"\n"].concat());
}

/// Prints a line that begins with the name of a program.
pub fn complain(program: Program, text: &[u8]) {
    print_error(&[program.name().as_bytes(), b": ", text].concat());
}

/// Prints bytes to standard output.
pub fn print_output(bytes: &[u8]) -> io::Result<()> {
    let mut output = io::stdout().lock();
    output.write_all(bytes)?;
    output.flush()
}

/// Says that no program has the name by which this one was called.
pub fn unknown_program(called: &[u8]) -> ExitCode {
    let names = Program::ALL.map(Program::name).join(", ");
    let shown = redo_files::paths::shown(called);
    print_error(&[shown.as_slice(), b": it is called ", names.as_bytes()].concat());
    ExitCode::from(USAGE)
}

#[cfg(test)]
mod tests {
    use super::*;

    #[test]
    fn a_cause_has_no_number() {
        let cause = io::Error::from_raw_os_error(libc::ENOENT);
        assert_eq!(cause_of(&cause), "No such file or directory");
        assert_eq!(
            cause_of(&io::Error::new(io::ErrorKind::Other, "words")),
            "words"
        );
    }

    #[test]
    fn the_last_part_is_a_name() {
        assert_eq!(last_part(b"/usr/bin/redo-ood"), b"redo-ood");
        assert_eq!(last_part(b"redo"), b"redo");
        assert_eq!(last_part(b""), b"");
    }
}
