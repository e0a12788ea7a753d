//! Random numbers (splitmix64): the same seed gives the same numbers.

pub struct Dice(pub u64);

impl Dice {
    /// The dice of one input: the same for the same seed and number, whatever was rolled for other inputs.
    pub fn of_input(seed: u64, number: u64) -> Dice {
        let mixed = Dice(seed).roll().wrapping_add(number);
        Dice(Dice(mixed).roll())
    }

    pub fn roll(&mut self) -> u64 {
        self.0 = self.0.wrapping_add(0x9E37_79B9_7F4A_7C15);
        let mut z = self.0;
        z = (z ^ (z >> 30)).wrapping_mul(0xBF58_476D_1CE4_E5B9);
        z = (z ^ (z >> 27)).wrapping_mul(0x94D0_49BB_1331_11EB);
        z ^ (z >> 31)
    }

    pub fn below(&mut self, end: usize) -> usize {
        (self.roll() % end as u64) as usize
    }

    /// A number from low to high, both among them.
    pub fn from(&mut self, low: i64, high: i64) -> i64 {
        low + (self.roll() % (high - low + 1) as u64) as i64
    }

    pub fn one_in(&mut self, many: usize) -> bool {
        self.below(many) == 0
    }

    /// One of these.
    pub fn pick<T: Copy>(&mut self, choices: &[T]) -> T {
        choices[self.below(choices.len())]
    }

    /// The number with one sign or the other.
    pub fn signed(&mut self, number: i64) -> i64 {
        number * self.pick(&[1, -1])
    }

    /// Any number, more often one near 0, near a power of two or at an end.
    pub fn wild(&mut self) -> i64 {
        let near = self.from(-2, 2);
        match self.below(6) {
            0 => i64::MIN,
            1 => i64::MAX,
            2 => near,
            3 => (1i64 << self.below(63)).wrapping_add(near),
            4 => (-1i64 << self.below(63)).wrapping_add(near),
            _ => self.roll() as i64,
        }
    }
}
