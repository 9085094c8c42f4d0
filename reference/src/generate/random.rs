//! SplitMix64.

pub struct Random {
    state: u64,
}

impl Random {
    pub fn new(seed: u64) -> Self {
        Random { state: seed }
    }

    #[allow(clippy::should_implement_trait)]
    pub fn next(&mut self) -> u64 {
        self.state = self.state.wrapping_add(0x9E37_79B9_7F4A_7C15);
        let mut word = self.state;
        word = (word ^ (word >> 30)).wrapping_mul(0xBF58_476D_1CE4_E5B9);
        word = (word ^ (word >> 27)).wrapping_mul(0x94D0_49BB_1331_11EB);
        word ^ (word >> 31)
    }

    /// A number under `bound`, which is not 0.
    pub fn below(&mut self, bound: usize) -> usize {
        (self.next() % bound as u64) as usize
    }

    /// A number from `low` to `high`, both included.
    pub fn between(&mut self, low: usize, high: usize) -> usize {
        low + self.below(high - low + 1)
    }

    pub fn one_in(&mut self, chances: usize) -> bool {
        self.below(chances) == 0
    }

    pub fn byte(&mut self) -> u8 {
        self.next() as u8
    }

    /// An item of a list that is not empty.
    pub fn pick<'a, T>(&mut self, items: &'a [T]) -> &'a T {
        &items[self.below(items.len())]
    }

    /// The same, to change it.
    pub fn pick_mut<'a, T>(&mut self, items: &'a mut [T]) -> &'a mut T {
        let at = self.below(items.len());
        &mut items[at]
    }

    pub fn shuffle<T>(&mut self, items: &mut [T]) {
        for last in (1..items.len()).rev() {
            let other = self.below(last + 1);
            items.swap(last, other);
        }
    }

    /// So many different bytes, in any order. At most 256.
    pub fn different_bytes(&mut self, count: usize) -> Vec<u8> {
        let highest = if count <= 8 && !self.one_in(4) {
            15
        } else {
            255
        };
        let mut bytes: Vec<u8> = (0..=highest).collect();
        if !self.one_in(3) {
            self.draw(&mut bytes, count);
        }
        bytes.truncate(count);
        bytes
    }

    /// A bit's number: a little more than a third of the time the first or the
    /// last.
    pub fn bit(&mut self) -> u8 {
        match self.below(96) {
            bit @ 0..64 => bit as u8,
            64..80 => 0,
            _ => 63,
        }
    }

    /// So many different bits, in any order; more than a third of the time the
    /// first or the last is among them. At most 64.
    pub fn different_bits(&mut self, count: usize) -> Vec<u8> {
        let mut bits: Vec<u8> = (0..64).collect();
        self.draw(&mut bits, count);
        if count > 0 {
            let bit = self.bit();
            let there = bits.iter().position(|&other| other == bit);
            let place = self.below(count);
            match there {
                Some(there) if there >= count => bits.swap(there, place),
                _ => {}
            }
        }
        bits.truncate(count);
        bits
    }

    /// Puts random items on the first `count` places.
    fn draw<T>(&mut self, items: &mut [T], count: usize) {
        for place in 0..count {
            let other = self.between(place, items.len() - 1);
            items.swap(place, other);
        }
    }
}
