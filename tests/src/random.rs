//! Random numbers from a seed: the same seed and case give the same numbers on every machine.

/// SplitMix64, by Sebastiano Vigna: one 64-bit state, one output a step.
pub struct Random {
    state: u64,
}

impl Random {
    /// The numbers of one case; another seed or case gives unrelated ones.
    pub fn new(seed: u64, case: u64) -> Random {
        let mut random = Random { state: seed };
        let start = random.draw();
        random.state = start ^ case.wrapping_mul(0xD134_2543_DE82_EF95);
        random
    }

    /// Any 64 bits.
    pub fn draw(&mut self) -> u64 {
        self.state = self.state.wrapping_add(0x9E37_79B9_7F4A_7C15);
        let mut mixed = self.state;
        mixed = (mixed ^ (mixed >> 30)).wrapping_mul(0xBF58_476D_1CE4_E5B9);
        mixed = (mixed ^ (mixed >> 27)).wrapping_mul(0x94D0_49BB_1331_11EB);
        mixed ^ (mixed >> 31)
    }

    /// A number from `low` to `high`, both included.
    pub fn range(&mut self, low: i64, high: i64) -> i64 {
        let count = (high - low) as u64 + 1;
        low + (self.draw() % count) as i64
    }

    /// A number below `count`.
    pub fn below(&mut self, count: usize) -> usize {
        (self.draw() % count as u64) as usize
    }

    /// True once in so many times.
    pub fn once_in(&mut self, times: usize) -> bool {
        self.below(times) == 0
    }

    pub fn pick<T: Copy>(&mut self, choices: &[T]) -> T {
        choices[self.below(choices.len())]
    }

    /// Any order of them, each as likely as another.
    pub fn shuffle<T>(&mut self, items: &mut [T]) {
        for place in (1..items.len()).rev() {
            items.swap(place, self.below(place + 1));
        }
    }

    pub fn bytes(&mut self, count: usize) -> Vec<u8> {
        let mut bytes = Vec::with_capacity(count + 8);
        while bytes.len() < count {
            bytes.extend(self.draw().to_le_bytes());
        }
        bytes.truncate(count);
        bytes
    }
}
