// Histories that build a graph and then ask about it in rounds.
use crate::writing::{numbered, Stamps, Writer};

#[derive(Clone, Copy, PartialEq)]
pub enum Asked {
    // nothing changes
    Same,
    // before each question one source changes, always the same
    One,
    // before each question another source changes, and it changes back after it
    Each,
}

fn names_of(sources: usize) -> Vec<String> {
    let archives = numbered(sources / 25, "lib", ".a");
    let made = numbered(sources, "out", ".o").chain(archives).chain(["all".to_string()]);
    numbered(sources, "src", ".c").chain(made).collect()
}

// as many objects as sources, each of a source; archives of 25 objects; a program of all archives
fn build_all(writer: &mut Writer, sources: u32) {
    let objects = sources..2 * sources;
    let archives = 2 * sources..2 * sources + sources / 25;
    for source in 0..sources {
        writer.file(source, 1);
    }
    for object in objects {
        writer.build(object, &[object - sources], 1);
    }
    for (archive, first) in archives.clone().zip((sources..).step_by(25)) {
        writer.build(archive, &(first..first + 25).collect::<Vec<u32>>(), 1);
    }
    writer.build(archives.end, &archives.collect::<Vec<u32>>(), 1);
}

fn ask(writer: &mut Writer, sources: usize, round: usize, asked: Asked) {
    // a prime number of steps leads to all sources
    let other = (7919 * round % sources) as u32;
    match asked {
        Asked::Same => {}
        Asked::One => writer.file(sources as u32 / 2, round + 2),
        Asked::Each => writer.file(other, 2),
    }
    writer.ask();
    if asked == Asked::Each {
        writer.file(other, 1);
    }
}

pub fn history_of(sources: usize, rounds: usize, asked: Asked) -> (String, Vec<u8>) {
    let stamps = Stamps::up_to(rounds + 2);
    let names = names_of(sources);
    let texts: Vec<&[u8]> = names.iter().map(String::as_bytes).collect();
    let mut writer = Writer::new(&texts, &stamps, usize::MAX);
    build_all(&mut writer, sources as u32);
    for round in 0..rounds {
        ask(&mut writer, sources, round, asked);
    }
    writer.history()
}
