//! A small seeded generator: history i of seed S throws dice that depend on these two alone.

pub struct Dice {
    state: u64,
}

impl Dice {
    pub fn new(seed: u64, history: u64) -> Dice {
        let mixed = seed.wrapping_mul(0x9E37_79B9_7F4A_7C15).rotate_left(31) ^ history;
        let spread = mixed.wrapping_mul(0xD134_2543_DE82_EF95);
        let mut dice = Dice {
            state: (spread ^ spread >> 32) | 1,
        };
        for _ in 0..8 {
            dice.next();
        }
        dice
    }

    /// The next 64 bits of a xorshift with a multiplied output.
    pub fn next(&mut self) -> u64 {
        self.state ^= self.state >> 12;
        self.state ^= self.state << 25;
        self.state ^= self.state >> 27;
        self.state.wrapping_mul(0x2545_F491_4F6C_DD1D)
    }

    /// A number from 0 to one less than the limit, which is at least 1.
    pub fn below(&mut self, limit: usize) -> usize {
        ((self.next() >> 11) % limit as u64) as usize
    }

    /// True about so many times in a hundred.
    pub fn chance(&mut self, percent: usize) -> bool {
        self.below(100) < percent
    }

    /// One of these, which are not none.
    pub fn one<T: Copy>(&mut self, of: &[T]) -> T {
        of[self.below(of.len())]
    }

    /// These in another order.
    pub fn shuffle<T>(&mut self, these: &mut [T]) {
        for last in (1..these.len()).rev() {
            these.swap(last, self.below(last + 1));
        }
    }
}
