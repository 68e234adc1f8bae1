// A plain Rust reader of session files, to measure against: it reads standard input whole, goes over its lines, and
// says how many commands there are.
use std::io::Read;

fn is_known(word: &[u8]) -> bool {
    matches!(
        word,
        b"file" | b"gone" | b"lock" | b"unlock" | b"start" | b"done" | b"failed" | b"targets"
    )
}

fn main() {
    let mut text = Vec::new();
    std::io::stdin().read_to_end(&mut text).expect("a read");
    let mut commands = 0;
    for (number, line) in text.split(|byte| *byte == b'\n').enumerate() {
        assert!(line.len() <= 8192, "line {}: too long", number + 1);
        if line.is_empty() || line[0] == b'#' {
            continue;
        }
        let bad = line.iter().any(|byte| !(32..=126).contains(byte));
        assert!(!bad, "line {}: bad byte", number + 1);
        let word = line.split(|byte| *byte == b' ').next().unwrap_or(b"");
        assert!(is_known(word), "line {}: unknown command", number + 1);
        commands += 1;
    }
    println!("history {commands}");
}
