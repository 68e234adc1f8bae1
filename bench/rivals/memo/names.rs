// Names as numbers: the places of distinct texts in the order in which they came.
use std::collections::HashMap;
use std::hash::{BuildHasherDefault, Hasher};

// multiplies and folds eight bytes at a time
#[derive(Default)]
pub struct Folded(u64);

impl Folded {
    fn fold(&mut self, word: u64) {
        let product = u128::from(self.0 ^ word) * 0x9e37_79b9_7f4a_7c15;
        self.0 = product as u64 ^ (product >> 64) as u64;
    }
}

fn four(bytes: &[u8]) -> u64 {
    u64::from(u32::from_le_bytes([bytes[0], bytes[1], bytes[2], bytes[3]]))
}

// eight bytes as a number
fn eight_of(bytes: &[u8]) -> u64 {
    u64::from_le_bytes(bytes.try_into().expect("eight bytes"))
}

// up to eight bytes as a number
fn few(bytes: &[u8]) -> u64 {
    match bytes {
        [] => 0,
        [a] => u64::from(*a),
        [a, .., z] if bytes.len() < 4 => {
            u64::from(*a) << 16 | u64::from(bytes[bytes.len() / 2]) << 8 | u64::from(*z)
        }
        _ => four(bytes) << 32 | four(&bytes[bytes.len() - 4..]),
    }
}

impl Hasher for Folded {
    fn write(&mut self, bytes: &[u8]) {
        let eights = bytes.chunks_exact(8);
        let has_rest = !eights.remainder().is_empty();
        for eight in eights {
            self.fold(eight_of(eight));
        }
        if bytes.len() < 8 {
            self.fold(few(bytes));
        } else if has_rest {
            self.fold(eight_of(&bytes[bytes.len() - 8..]));
        }
    }

    fn write_usize(&mut self, number: usize) {
        self.0 ^= number as u64;
    }

    fn finish(&self) -> u64 {
        self.0
    }
}

// so many names a history or a run has at most
#[allow(dead_code)]
pub const MOST_NAMES: usize = 65_536;

#[derive(Default)]
pub struct Names<'a> {
    pub texts: Vec<&'a [u8]>,
    pub numbers: HashMap<&'a [u8], u32, BuildHasherDefault<Folded>>,
}

impl<'a> Names<'a> {
    // the number of a text of visible bytes, if it is a name and there aren't more than this
    pub fn add(&mut self, text: &'a [u8], most: usize) -> Option<u32> {
        if let Some(number) = self.numbers.get(text) {
            return Some(*number);
        }
        let is_name = (1..=255).contains(&text.len()) && text[0] != b'#';
        if !is_name || text == b"-" || text == b"=>" || self.texts.len() == most {
            return None;
        }
        let number = self.texts.len() as u32;
        self.texts.push(text);
        self.numbers.insert(text, number);
        Some(number)
    }

    // the numbers, sorted by the bytes of their names
    pub fn sorted(&self) -> Vec<u32> {
        let mut order: Vec<u32> = (0..self.texts.len() as u32).collect();
        order.sort_unstable_by_key(|n| self.texts[*n as usize]);
        order
    }
}
