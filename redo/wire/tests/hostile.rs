//! No bytes make decoding fail but by an error.

use redo_wire::{FrameBuffer, ToProgram, ToServer, WireError, MOST_BODY, VERSION};

mod samples;
use samples::{bodies, text, to_program, to_server};

fn all_bodies() -> Vec<Vec<u8>> {
    let mut sent = Vec::new();
    for message in to_server() {
        message.encode(&mut sent).unwrap();
    }
    for message in to_program() {
        message.encode(&mut sent).unwrap();
    }
    bodies(&sent)
}

#[test]
fn another_version_is_told_apart_by_the_first_number() {
    let mut body = vec![1];
    body.extend((VERSION + 1).to_le_bytes());
    body.extend(b"anything else");
    assert_eq!(
        ToServer::decode(&body),
        Err(WireError::OtherVersion(VERSION + 1))
    );
}

#[test]
fn bytes_that_no_field_may_have_are_named() {
    assert_eq!(ToServer::decode(&[99]), Err(WireError::NoKind(99)));
    assert_eq!(ToProgram::decode(&[0]), Err(WireError::NoKind(0)));
    assert_eq!(ToProgram::decode(&[8, 2]), Err(WireError::NoFlag(2)));
    assert_eq!(ToProgram::decode(&[7, 0, 77]), Err(WireError::NoSay(77)));
    let program = [&[1][..], &VERSION.to_le_bytes(), &[11]].concat();
    assert_eq!(ToServer::decode(&program), Err(WireError::NoProgram(11)));
}

#[test]
fn lengths_that_lie_cost_nothing() {
    for length in [1, 5, 1 << 16, u32::MAX >> 1, u32::MAX] {
        let told = length.to_le_bytes();
        let output = [&[2][..], &told, b""].concat();
        assert_eq!(ToProgram::decode(&output), Err(WireError::Short));
        let ring = [&[7, 0, 1][..], &told, b"abc"].concat();
        assert_eq!(ToProgram::decode(&ring), Err(WireError::Short));
    }
}

#[test]
fn a_frame_that_is_too_long_is_refused_at_its_head() {
    let mut received = FrameBuffer::default();
    let most = u32::try_from(MOST_BODY).unwrap();
    received.push(&most.to_le_bytes());
    assert_eq!(received.next_body(), Ok(None));
    let mut received = FrameBuffer::default();
    received.push(&(most + 1).to_le_bytes());
    assert_eq!(received.next_body(), Err(WireError::TooLong(MOST_BODY + 1)));
    assert_eq!(received.next_body(), Err(WireError::TooLong(MOST_BODY + 1)));
}

#[test]
fn a_message_that_is_too_long_leaves_no_bytes() {
    let mut sent = text("before");
    let error = ToProgram::Output(vec![0; MOST_BODY]).encode(&mut sent);
    assert_eq!(error, Err(WireError::TooLong(MOST_BODY + 5)));
    assert_eq!(sent, b"before");
    ToProgram::Output(vec![0; MOST_BODY - 5])
        .encode(&mut sent)
        .unwrap();
}

/// Numbers that look random: xorshift, by Marsaglia.
struct Drawn(u64);

impl Drawn {
    fn next(&mut self) -> u64 {
        self.0 ^= self.0 << 13;
        self.0 ^= self.0 >> 7;
        self.0 ^= self.0 << 17;
        self.0
    }

    fn below(&mut self, end: usize) -> usize {
        usize::try_from(self.next() >> 16).unwrap() % end
    }
}

/// Writes what was read, and expects the same bytes.
fn check_again(body: &[u8]) -> usize {
    let mut sent = Vec::new();
    if let Ok(message) = ToServer::decode(body) {
        message.encode(&mut sent).unwrap();
        assert_eq!(&sent[4..], body);
    }
    sent.clear();
    if let Ok(message) = ToProgram::decode(body) {
        message.encode(&mut sent).unwrap();
        assert_eq!(&sent[4..], body);
    }
    sent.len()
}

#[test]
fn drawn_bytes_are_a_message_or_an_error() {
    let mut drawn = Drawn(0x9e37_79b9_7f4a_7c15);
    for _ in 0..100_000 {
        let length = drawn.below(80);
        let kind = u8::try_from(drawn.below(12)).unwrap();
        let rest = (0..length).map(|_| u8::try_from(drawn.below(256)).unwrap());
        let body: Vec<u8> = std::iter::once(kind).chain(rest).collect();
        check_again(&body);
    }
}

#[test]
fn messages_with_drawn_changes_are_a_message_or_an_error() {
    let mut drawn = Drawn(0x2545_f491_4f6c_dd1d);
    let bodies = all_bodies();
    let mut messages = 0;
    for _ in 0..100_000 {
        let mut body = bodies[drawn.below(bodies.len())].clone();
        let place = drawn.below(body.len());
        match drawn.below(4) {
            0 => body.truncate(place),
            1 => body.insert(place, u8::try_from(drawn.below(256)).unwrap()),
            2 => drop(body.remove(place)),
            _ => body[place] = u8::try_from(drawn.below(256)).unwrap(),
        }
        messages += usize::from(check_again(&body) > 0);
    }
    assert!(messages > 1000, "{messages}");
}
