//! Numbers drawn from a seed (splitmix64), so that a difference can be met again.

pub struct Random(u64);

impl Random {
    pub fn new(seed: u64) -> Random {
        Random(seed.wrapping_mul(0x2545_f491_4f6c_dd1d))
    }

    fn next(&mut self) -> u64 {
        self.0 = self.0.wrapping_add(0x9e37_79b9_7f4a_7c15);
        let mut z = self.0;
        z = (z ^ (z >> 30)).wrapping_mul(0xbf58_476d_1ce4_e5b9);
        z = (z ^ (z >> 27)).wrapping_mul(0x94d0_49bb_1331_11eb);
        z ^ (z >> 31)
    }

    /// Below a limit that is not 0.
    pub fn below(&mut self, limit: u32) -> u32 {
        (self.next() % u64::from(limit)) as u32
    }

    /// A span of a page: offset and length, at least one byte.
    pub fn span(&mut self, page_size: u32) -> (u32, u32) {
        let offset = self.below(page_size);
        let most = (page_size - offset).min(if self.below(8) == 0 { page_size } else { 40 });
        (offset, 1 + self.below(most))
    }

    pub fn bytes(&mut self, length: u32) -> Vec<u8> {
        (0..length).map(|_| self.next() as u8).collect()
    }
}
