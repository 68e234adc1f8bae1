//! SHA-1 (FIPS 180-4), by which the database knows contents.

const BLOCK: usize = 64;
const LENGTH_BYTES: usize = 8;
const BEGINNING: [u32; 5] = [0x67452301, 0xefcdab89, 0x98badcfe, 0x10325476, 0xc3d2e1f0];

/// A digest.
pub type Sum = [u8; 20];

/// Returns the digest of a text.
pub fn sum_of(text: &[u8]) -> Sum {
    // a bit, as many zeros as are missing, and the length in bits
    let end = text.len() % BLOCK + 1 + LENGTH_BYTES;
    let whole = (end + BLOCK - 1) / BLOCK * BLOCK;
    let (blocks, rest) = text.split_at(text.len() / BLOCK * BLOCK);
    let mut last = rest.to_vec();
    last.push(0x80);
    last.resize(whole - LENGTH_BYTES, 0);
    last.extend_from_slice(&(text.len() as u64).wrapping_mul(8).to_be_bytes());
    let state = blocks.chunks_exact(BLOCK).fold(BEGINNING, after_block);
    let state = last.chunks_exact(BLOCK).fold(state, after_block);
    let mut sum = [0; 20];
    for (bytes, word) in sum.chunks_exact_mut(4).zip(state) {
        bytes.copy_from_slice(&word.to_be_bytes());
    }
    sum
}

fn after_block(before: [u32; 5], block: &[u8]) -> [u32; 5] {
    let rounds = (0..).zip(schedule(block));
    let mut after = rounds.fold(before, after_round);
    for (word, old) in after.iter_mut().zip(before) {
        *word = word.wrapping_add(old);
    }
    after
}

fn schedule(block: &[u8]) -> [u32; 80] {
    let mut words = [0; 80];
    for (word, bytes) in words.iter_mut().zip(block.chunks_exact(4)) {
        *word = bytes
            .iter()
            .fold(0, |sum, byte| sum << 8 | u32::from(*byte));
    }
    for at in 16..80 {
        let word = words[at - 3] ^ words[at - 8] ^ words[at - 14] ^ words[at - 16];
        words[at] = word.rotate_left(1);
    }
    words
}

fn after_round([a, b, c, d, e]: [u32; 5], (round, word): (u32, u32)) -> [u32; 5] {
    let (mixed, constant) = match round / 20 {
        0 => (b & c | !b & d, 0x5a827999),
        1 => (b ^ c ^ d, 0x6ed9eba1),
        2 => (b & c | b & d | c & d, 0x8f1bbcdc),
        _ => (b ^ c ^ d, 0xca62c1d6),
    };
    let sum = a.rotate_left(5).wrapping_add(mixed).wrapping_add(e);
    let first = sum.wrapping_add(constant).wrapping_add(word);
    [first, a, b.rotate_left(30), c, d]
}

#[cfg(test)]
mod tests {
    use super::*;

    fn digits(text: &[u8]) -> String {
        let sum = sum_of(text);
        sum.iter().map(|byte| format!("{byte:02x}")).collect()
    }

    /// What `sha1sum` of coreutils prints: of each length beside the end of a block.
    #[test]
    fn digests_are_those_of_coreutils() {
        for (text, wanted) in [
            ("", "da39a3ee5e6b4b0d3255bfef95601890afd80709"),
            ("abc", "a9993e364706816aba3e25717850c26c9cd0d89d"),
            (&"a".repeat(55), "c1c8bbdc22796e28c0e15163d20899b65621d65a"),
            (&"a".repeat(56), "c2db330f6083854c99d4b5bfb6e8f29f201be699"),
            (&"a".repeat(63), "03f09f5b158a7a8cdad920bddc29b81c18a551f5"),
            (&"a".repeat(64), "0098ba824b5c16427bd7a1122a5a442a25ec644d"),
            (&"a".repeat(65), "11655326c708d70319be2610e8a57d9a5b959d3b"),
            (
                &"a".repeat(4000),
                "38e4f3c0c14b64b1e112b7f4dc370fd962ad31de",
            ),
        ] {
            assert_eq!(digits(text.as_bytes()), wanted, "{}", text.len());
        }
    }
}
