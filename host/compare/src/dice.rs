//! A small random generator (splitmix64) that gives the same throws for the same seed on every machine.

/// A sequence of throws.
pub struct Dice(u64);

impl Dice {
    pub fn new(seed: u64) -> Dice {
        Dice(seed)
    }

    /// Any number of 64 bits.
    pub fn number(&mut self) -> u64 {
        self.0 = self.0.wrapping_add(0x9E37_79B9_7F4A_7C15);
        let mixed = (self.0 ^ self.0 >> 30).wrapping_mul(0xBF58_476D_1CE4_E5B9);
        let mixed = (mixed ^ mixed >> 27).wrapping_mul(0x94D0_49BB_1331_11EB);
        mixed ^ mixed >> 31
    }

    /// A number below the bound, which is not 0.
    pub fn below(&mut self, bound: u64) -> u64 {
        self.number() % bound
    }

    /// True once in so many throws.
    pub fn once_in(&mut self, throws: u64) -> bool {
        self.below(throws) == 0
    }

    pub fn pick<T: Copy>(&mut self, choices: &[T]) -> T {
        choices[self.below(choices.len() as u64) as usize]
    }

    pub fn any_bytes(&mut self, length: usize) -> Vec<u8> {
        (0..length).map(|_| self.number() as u8).collect()
    }

    /// Bytes of one of four sorts: any, nearly all zero, all zero, or of two values only.
    pub fn bytes(&mut self, length: usize) -> Vec<u8> {
        match self.below(4) {
            0 => self.any_bytes(length),
            1 => (0..length).map(|_| if self.once_in(8) { self.number() as u8 } else { 0 }).collect(),
            2 => vec![0; length],
            _ => (0..length).map(|_| self.below(2) as u8).collect(),
        }
    }
}
