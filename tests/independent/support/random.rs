//! A small source of numbers: the same seed gives the same numbers on every machine.

pub struct Random(u64);

impl Random {
    pub fn new(seed: u64) -> Random {
        Random(seed)
    }

    /// Splitmix64: neighbouring seeds give unrelated numbers, so files may be numbered 0, 1, 2.
    pub fn draw(&mut self) -> u64 {
        self.0 = self.0.wrapping_add(0x9E37_79B9_7F4A_7C15);
        let mut mixed = self.0;
        mixed = (mixed ^ (mixed >> 30)).wrapping_mul(0xBF58_476D_1CE4_E5B9);
        mixed = (mixed ^ (mixed >> 27)).wrapping_mul(0x94D0_49BB_1331_11EB);
        mixed ^ (mixed >> 31)
    }

    /// The remainder leans a little to small numbers, which does no harm here.
    pub fn below(&mut self, limit: usize) -> usize {
        (self.draw() % limit as u64) as usize
    }

    pub fn pick<T: Copy>(&mut self, from: &[T]) -> T {
        from[self.below(from.len())]
    }

    /// A size up to `largest`. Both ends come often, because faults sit there; the middle is mostly
    /// small, because small files are read in less time and fail in the same ways.
    pub fn size(&mut self, largest: usize) -> usize {
        match self.below(10) {
            0 => 0,
            1 => largest,
            2 => self.below(largest + 1),
            _ => self.below(largest.min(6) + 1),
        }
    }
}
