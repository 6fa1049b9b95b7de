//! A small generator of random numbers (splitmix64).

pub struct Random {
    state: u64,
}

impl Random {
    pub fn new(seed: u64) -> Self {
        Self { state: seed }
    }

    pub fn word(&mut self) -> u64 {
        self.state = self.state.wrapping_add(0x9E37_79B9_7F4A_7C15);
        let mut word = self.state;
        word = (word ^ (word >> 30)).wrapping_mul(0xBF58_476D_1CE4_E5B9);
        word = (word ^ (word >> 27)).wrapping_mul(0x94D0_49BB_1331_11EB);
        word ^ (word >> 31)
    }

    /// A number below `end`.
    pub fn below(&mut self, end: u64) -> u64 {
        ((u128::from(self.word()) * u128::from(end)) >> 64) as u64
    }

    /// A place below `end`.
    pub fn index(&mut self, end: usize) -> usize {
        self.below(end as u64) as usize
    }

    /// A number from `least` to `most`, both among them.
    pub fn between(&mut self, least: u32, most: u32) -> u32 {
        least + self.below(u64::from(most - least) + 1) as u32
    }

    /// 0 half of the time, otherwise a number below 100,000.
    pub fn small(&mut self) -> u32 {
        match self.below(2) {
            0 => 0,
            _ => self.between(0, 99_999),
        }
    }

    pub fn byte(&mut self) -> u8 {
        self.word() as u8
    }

    pub fn one_of<'a, T>(&mut self, choices: &'a [T]) -> &'a T {
        &choices[self.index(choices.len())]
    }

    pub fn shuffle<T>(&mut self, items: &mut [T]) {
        for end in (2..=items.len()).rev() {
            items.swap(end - 1, self.index(end));
        }
    }

    /// Adds random bytes.
    pub fn extend(&mut self, bytes: &mut Vec<u8>, more: usize) {
        let end = bytes.len() + more;
        while bytes.len() < end {
            let word = self.word().to_le_bytes();
            let part = word.len().min(end - bytes.len());
            bytes.extend(&word[..part]);
        }
    }
}
