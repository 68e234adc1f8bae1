//! SHA-256 (FIPS 180-4): what `redo-stamp` tells of its input, and the names of files of `.redo` that
//! are about a target.

const BLOCK: usize = 64;
const LENGTH_BYTES: usize = 8;

/// The first 32 bits of the fractions of the square roots of the first 8 primes.
const BEGINNING: [u32; 8] = [
    0x6a09e667, 0xbb67ae85, 0x3c6ef372, 0xa54ff53a, 0x510e527f, 0x9b05688c, 0x1f83d9ab, 0x5be0cd19,
];

/// The first 32 bits of the fractions of the cube roots of the first 64 primes.
const ROUNDS: [u32; 64] = [
    0x428a2f98, 0x71374491, 0xb5c0fbcf, 0xe9b5dba5, 0x3956c25b, 0x59f111f1, 0x923f82a4, 0xab1c5ed5,
    0xd807aa98, 0x12835b01, 0x243185be, 0x550c7dc3, 0x72be5d74, 0x80deb1fe, 0x9bdc06a7, 0xc19bf174,
    0xe49b69c1, 0xefbe4786, 0x0fc19dc6, 0x240ca1cc, 0x2de92c6f, 0x4a7484aa, 0x5cb0a9dc, 0x76f988da,
    0x983e5152, 0xa831c66d, 0xb00327c8, 0xbf597fc7, 0xc6e00bf3, 0xd5a79147, 0x06ca6351, 0x14292967,
    0x27b70a85, 0x2e1b2138, 0x4d2c6dfc, 0x53380d13, 0x650a7354, 0x766a0abb, 0x81c2c92e, 0x92722c85,
    0xa2bfe8a1, 0xa81a664b, 0xc24b8b70, 0xc76c51a3, 0xd192e819, 0xd6990624, 0xf40e3585, 0x106aa070,
    0x19a4c116, 0x1e376c08, 0x2748774c, 0x34b0bcb5, 0x391c0cb3, 0x4ed8aa4a, 0x5b9cca4f, 0x682e6ff3,
    0x748f82ee, 0x78a5636f, 0x84c87814, 0x8cc70208, 0x90befffa, 0xa4506ceb, 0xbef9a3f7, 0xc67178f2,
];

/// Returns the digest of a text.
pub fn digest(text: &[u8]) -> [u8; 32] {
    let mut hash = Sha256::new();
    hash.take(text);
    hash.end()
}

/// What was taken so far, for its digest.
#[derive(Clone, Debug)]
pub struct Sha256 {
    state: [u32; 8],
    /// What was taken, and is no whole block yet.
    rest: Vec<u8>,
    length: u64,
}

impl Default for Sha256 {
    fn default() -> Self {
        Sha256::new()
    }
}

impl Sha256 {
    /// Of nothing.
    pub fn new() -> Sha256 {
        Sha256 {
            state: BEGINNING,
            rest: Vec::with_capacity(2 * BLOCK),
            length: 0,
        }
    }

    /// Takes bytes, behind those that were taken before.
    pub fn take(&mut self, bytes: &[u8]) {
        self.length = self.length.wrapping_add(bytes.len() as u64);
        self.rest.extend_from_slice(bytes);
        let whole = self.rest.len() / BLOCK * BLOCK;
        let blocks = self.rest[..whole].chunks_exact(BLOCK);
        self.state = blocks.fold(self.state, after_block);
        self.rest.drain(..whole);
    }

    /// Returns the digest of all that was taken.
    pub fn end(mut self) -> [u8; 32] {
        // a bit, as many zeros as are missing, and the length in bits
        let bits = self.length.wrapping_mul(8);
        let end = self.rest.len() + 1 + LENGTH_BYTES;
        let whole = (end + BLOCK - 1) / BLOCK * BLOCK;
        self.rest.push(0x80);
        self.rest.resize(whole - LENGTH_BYTES, 0);
        self.rest.extend_from_slice(&bits.to_be_bytes());
        let state = self.rest.chunks_exact(BLOCK).fold(self.state, after_block);
        let mut digest = [0; 32];
        for (bytes, word) in digest.chunks_exact_mut(4).zip(state) {
            bytes.copy_from_slice(&word.to_be_bytes());
        }
        digest
    }
}

fn after_block(before: [u32; 8], block: &[u8]) -> [u32; 8] {
    let rounds = ROUNDS.into_iter().zip(schedule(block));
    let mut after = rounds.fold(before, after_round);
    for (word, old) in after.iter_mut().zip(before) {
        *word = word.wrapping_add(old);
    }
    after
}

fn schedule(block: &[u8]) -> [u32; 64] {
    let mut words = [0; 64];
    for (word, bytes) in words.iter_mut().zip(block.chunks_exact(4)) {
        *word = bytes
            .iter()
            .fold(0, |sum, byte| sum << 8 | u32::from(*byte));
    }
    (16..64).for_each(|place| words[place] = scheduled(&words, place));
    words
}

fn scheduled(words: &[u32; 64], place: usize) -> u32 {
    let (near, far) = (words[place - 15], words[place - 2]);
    let near = near.rotate_right(7) ^ near.rotate_right(18) ^ (near >> 3);
    let far = far.rotate_right(17) ^ far.rotate_right(19) ^ (far >> 10);
    words[place - 16]
        .wrapping_add(near)
        .wrapping_add(words[place - 7])
        .wrapping_add(far)
}

fn after_round([a, b, c, d, e, f, g, h]: [u32; 8], (round, word): (u32, u32)) -> [u32; 8] {
    let sum = e.rotate_right(6) ^ e.rotate_right(11) ^ e.rotate_right(25);
    let choice = (e & f) ^ (!e & g);
    let first = h
        .wrapping_add(sum)
        .wrapping_add(choice)
        .wrapping_add(round)
        .wrapping_add(word);
    let sum = a.rotate_right(2) ^ a.rotate_right(13) ^ a.rotate_right(22);
    let majority = (a & b) ^ (a & c) ^ (b & c);
    let second = sum.wrapping_add(majority);
    [
        first.wrapping_add(second),
        a,
        b,
        c,
        d.wrapping_add(first),
        e,
        f,
        g,
    ]
}

#[cfg(test)]
mod tests {
    use super::*;
    use std::io::Write;
    use std::process::{Command, Stdio};

    fn hexadecimal(digest: [u8; 32]) -> String {
        digest.iter().map(|byte| format!("{byte:02x}")).collect()
    }

    fn by_sha256sum(text: &[u8]) -> String {
        let mut command = Command::new("sha256sum");
        let mut process = command
            .stdin(Stdio::piped())
            .stdout(Stdio::piped())
            .spawn()
            .unwrap();
        process.stdin.take().unwrap().write_all(text).unwrap();
        let told = process.wait_with_output().unwrap().stdout;
        String::from_utf8(told[..64].to_vec()).unwrap()
    }

    #[test]
    fn digests_are_those_of_the_standard() {
        let long = "a".repeat(1_000_000);
        let cases = [
            (
                long.as_str(),
                "cdc76e5c9914fb9281a1c7e284d73e67f1809a48a497200e046d39ccc7112cd0",
            ),
            (
                "abc",
                "ba7816bf8f01cfea414140de5dae2223b00361a396177a9cb410ff61f20015ad",
            ),
            (
                "abcdbcdecdefdefgefghfghighijhijkijkljklmklmnlmnomnopnopq",
                "248d6a61d20638b8e5c026930c3e6039a33ce45964ff2167f6ecedd419db06c1",
            ),
            (
                "",
                "e3b0c44298fc1c149afbf4c8996fb92427ae41e4649b934ca495991b7852b855",
            ),
        ];
        for (text, wanted) in cases {
            assert_eq!(hexadecimal(digest(text.as_bytes())), wanted);
        }
    }

    #[test]
    fn digests_are_those_of_sha256sum() {
        for length in [
            1, 54, 55, 56, 57, 63, 64, 65, 119, 120, 128, 65_535, 65_537, 200_000,
        ] {
            let text: Vec<u8> = (0..length)
                .map(|place: u32| (place * 7 % 251) as u8)
                .collect();
            assert_eq!(hexadecimal(digest(&text)), by_sha256sum(&text), "{length}");
        }
    }

    #[test]
    fn the_pieces_do_not_count() {
        let text: Vec<u8> = (0..1000).map(|place: u32| (place % 256) as u8).collect();
        for size in [1, 13, 63, 64, 65, 127] {
            let mut hash = Sha256::new();
            text.chunks(size).for_each(|piece| hash.take(piece));
            assert_eq!(hash.end(), digest(&text), "{size}");
        }
    }
}
