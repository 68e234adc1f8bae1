// Asks a program, and awaits its answers. Lines on standard input are sent to it: all but the last
// COUNT ahead, then these PIECE at a time, each piece once the one before is answered. Prints the
// seconds that these took.
// Usage: asking COUNT PIECE PROGRAM WORD..
use std::io::{BufRead, BufReader, Read, Write};
use std::process::{Child, Command, Stdio};
use std::thread;
use std::time::Instant;

fn started(words: &[String]) -> Child {
    let mut command = Command::new(&words[0]);
    command.args(&words[1..]).stdin(Stdio::piped()).stdout(Stdio::piped());
    command.spawn().expect("a program")
}

fn awaited(answers: &mut impl BufRead, line: &mut Vec<u8>, count: usize) {
    for _ in 0..count {
        line.clear();
        answers.read_until(b'\n', line).expect("an answer");
        assert!(line.ends_with(b"\n"), "the program ended");
    }
}

// Sends lines and awaits as many answers. Of several lines the program may answer some before it
// has read the others.
fn asked(lines: &[&[u8]], asks: &mut (impl Write + Send), answers: &mut impl BufRead) {
    let mut line = Vec::new();
    if let [only] = lines {
        asks.write_all(only).expect("a reader");
        return awaited(answers, &mut line, 1);
    }
    thread::scope(|scope| {
        scope.spawn(|| asks.write_all(&lines.concat()).expect("a reader"));
        awaited(answers, &mut line, lines.len());
    });
}

fn main() {
    let words: Vec<String> = std::env::args().skip(1).collect();
    let number = |at: usize| words[at].parse::<usize>().expect("a number");
    let mut text = Vec::new();
    std::io::stdin().read_to_end(&mut text).expect("lines");
    let lines: Vec<&[u8]> = text.split_inclusive(|byte| *byte == b'\n').collect();
    let (ahead, last) = lines.split_at(lines.len() - number(0));
    let mut program = started(&words[2..]);
    let mut asks = program.stdin.take().expect("a pipe");
    let mut answers = BufReader::new(program.stdout.take().expect("a pipe"));
    awaited(&mut answers, &mut Vec::new(), 1);
    asked(ahead, &mut asks, &mut answers);
    let begun = Instant::now();
    for piece in last.chunks(number(1)) {
        asked(piece, &mut asks, &mut answers);
    }
    println!("{}", begun.elapsed().as_secs_f64());
    drop(asks);
    assert!(program.wait().expect("a status").success());
}
