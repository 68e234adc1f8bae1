//! SHA-1 of a few bytes, as FIPS 180-4 has it: what the database answers to `stamp`.

const FIRST: [u32; 5] = [0x6745_2301, 0xEFCD_AB89, 0x98BA_DCFE, 0x1032_5476, 0xC3D2_E1F0];

/// The digest of at most 55 bytes, in hexadecimal digits.
pub fn hex(bytes: &[u8]) -> String {
    assert!(bytes.len() <= 55, "more than one block");
    let mut block = [0; 64];
    block[..bytes.len()].copy_from_slice(bytes);
    block[bytes.len()] = 0x80;
    block[56..].copy_from_slice(&(bytes.len() as u64 * 8).to_be_bytes());
    let digest = add(FIRST, rounds(&schedule(&block)));
    digest.iter().map(|word| format!("{word:08x}")).collect()
}

fn schedule(block: &[u8; 64]) -> [u32; 80] {
    let mut words = [0; 80];
    for at in 0..80 {
        words[at] = if at < 16 {
            let part = &block[4 * at..4 * at + 4];
            u32::from_be_bytes([part[0], part[1], part[2], part[3]])
        } else {
            (words[at - 3] ^ words[at - 8] ^ words[at - 14] ^ words[at - 16]).rotate_left(1)
        };
    }
    words
}

fn rounds(words: &[u32; 80]) -> [u32; 5] {
    let [mut a, mut b, mut c, mut d, mut e] = FIRST;
    for (at, word) in words.iter().enumerate() {
        let (mixed, constant) = match at {
            0..=19 => ((b & c) | (!b & d), 0x5A82_7999),
            20..=39 => (b ^ c ^ d, 0x6ED9_EBA1),
            40..=59 => ((b & c) | (b & d) | (c & d), 0x8F1B_BCDC),
            _ => (b ^ c ^ d, 0xCA62_C1D6_u32),
        };
        let sum = a.rotate_left(5).wrapping_add(mixed).wrapping_add(e);
        let next = sum.wrapping_add(constant).wrapping_add(*word);
        (a, b, c, d, e) = (next, a, b.rotate_left(30), c, d);
    }
    [a, b, c, d, e]
}

fn add(left: [u32; 5], right: [u32; 5]) -> [u32; 5] {
    std::array::from_fn(|at| left[at].wrapping_add(right[at]))
}

#[cfg(test)]
mod tests {
    /// The values are those of FIPS 180 and of sha1sum.
    #[test]
    fn digests_of_known_texts() {
        assert_eq!(super::hex(b"abc"), "a9993e364706816aba3e25717850c26c9cd0d89d");
        assert_eq!(super::hex(b""), "da39a3ee5e6b4b0d3255bfef95601890afd80709");
    }
}
