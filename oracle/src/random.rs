//! Random numbers that are the same in every run.

/// Splitmix64.
pub struct Random(u64);

impl Random {
    pub fn new(seed: u64) -> Self {
        Random(seed)
    }

    pub fn draw(&mut self) -> u64 {
        self.0 = self.0.wrapping_add(0x9E37_79B9_7F4A_7C15);
        let mut mixed = self.0;
        mixed = (mixed ^ mixed >> 30).wrapping_mul(0xBF58_476D_1CE4_E5B9);
        mixed = (mixed ^ mixed >> 27).wrapping_mul(0x94D0_49BB_1331_11EB);
        mixed ^ mixed >> 31
    }

    pub fn byte(&mut self) -> u8 {
        (self.draw() >> 32) as u8
    }

    /// From the least to the greatest, both of them drawn too.
    pub fn within(&mut self, least: usize, greatest: usize) -> usize {
        least + (self.draw() % (greatest - least + 1) as u64) as usize
    }

    pub fn once_in(&mut self, times: usize) -> bool {
        self.within(1, times) == 1
    }

    pub fn one_of<T: Copy>(&mut self, values: &[T]) -> T {
        values[self.within(0, values.len() - 1)]
    }

    pub fn fill(&mut self, bytes: &mut Vec<u8>, count: usize) {
        bytes.extend((0..count).map(|_| self.byte()));
    }
}
