//! Numbers to make cases from: xorshift64*, so that they owe nothing to the generator compared.

pub struct Random(u64);

impl Random {
    /// Always the same start, so that a run can be repeated.
    pub fn new() -> Self {
        Self(0x0123_4567_89AB_CDEF)
    }

    pub fn next(&mut self) -> u64 {
        self.0 ^= self.0 >> 12;
        self.0 ^= self.0 << 25;
        self.0 ^= self.0 >> 27;
        self.0.wrapping_mul(0x2545_F491_4F6C_DD1D)
    }

    /// A number below `limit`, which is not 0.
    pub fn below(&mut self, limit: usize) -> usize {
        (self.next() >> 16) as usize % limit
    }

    /// A size of a code, up to 256: small ones, ones at an end, and any.
    pub fn size(&mut self) -> usize {
        match self.below(8) {
            0 => self.below(5),
            1 | 2 => self.below(17),
            3 | 4 => self.below(65),
            5 => [0, 1, 2, 31, 32, 33, 127, 128, 129, 254, 255, 256][self.below(12)],
            _ => self.below(257),
        }
    }

    /// Puts entries in another order.
    pub fn shuffle<T>(&mut self, entries: &mut [T]) {
        for i in (1..entries.len()).rev() {
            entries.swap(i, self.below(i + 1));
        }
    }

    /// So many symbols below `limit`, which is at most 256.
    pub fn symbols(&mut self, count: usize, limit: usize) -> Vec<u8> {
        (0..count).map(|_| self.below(limit) as u8).collect()
    }
}
