//! A small generator of our own (xorshift64*), so that a seed gives the same questions everywhere.
pub struct Random(u64);

impl Random {
    pub fn new(seed: u64) -> Self {
        Random(seed.wrapping_mul(0x9e37_79b9_7f4a_7c15) | 1)
    }
    pub fn next(&mut self) -> u64 {
        self.0 ^= self.0 >> 12;
        self.0 ^= self.0 << 25;
        self.0 ^= self.0 >> 27;
        self.0.wrapping_mul(0x2545_f491_4f6c_dd1d)
    }
    /// A number below n.
    pub fn below(&mut self, n: u64) -> u64 {
        (self.next() >> 11) % n
    }
    /// A signed number of up to `bits` bits, each size as likely as the other, the ends among them.
    pub fn signed(&mut self, bits: u32) -> i64 {
        let size = self.below(bits as u64) as u32;
        let v = match self.below(8) {
            0 => 0,
            1 => (1i64 << size).wrapping_sub(1),
            2 => 1i64 << size,
            _ => (self.next() & ((1u64 << size) | ((1u64 << size) - 1))) as i64,
        };
        let v = if self.below(2) == 0 { v } else { !v };
        let top = 64 - bits;
        (v << top) >> top
    }
    pub fn word(&mut self) -> i64 {
        self.signed(16)
    }
}
