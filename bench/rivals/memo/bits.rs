// A set of small numbers.
pub struct Bits(pub Vec<u64>);

fn ones(mut word: u64) -> impl Iterator<Item = u32> {
    std::iter::from_fn(move || {
        let bit = (word != 0).then(|| word.trailing_zeros());
        word &= word.wrapping_sub(1);
        bit
    })
}

impl Bits {
    pub fn new(count: usize) -> Bits {
        Bits(vec![0; (count + 63) / 64])
    }

    pub fn set(&mut self, number: u32, is_in: bool) {
        let word = &mut self.0[number as usize / 64];
        *word = *word & !(1 << (number % 64)) | u64::from(is_in) << (number % 64);
    }

    // what is in both, ascending
    pub fn in_both<'a>(&'a self, other: &'a Bits) -> impl Iterator<Item = u32> + 'a {
        let both = self.0.iter().zip(&other.0).map(|(a, b)| a & b);
        (0..).step_by(64).zip(both).flat_map(|(from, word)| ones(word).map(move |bit| from + bit))
    }
}
