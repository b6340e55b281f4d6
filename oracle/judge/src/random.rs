//! Random numbers from a seed: splitmix64. The same seed gives the same inputs on every machine.

pub struct Random(u64);

impl Random {
    /// The numbers of one case: they depend on nothing but the seed and the case's own number.
    pub fn of_case(seed: u64, case: u64) -> Self {
        let mut outer = Random(seed);
        let salt = outer.next();
        let mut inner = Random(salt ^ case.wrapping_mul(0xd129_0d3a_58c6_9f4d));
        inner.next();
        inner
    }

    pub fn next(&mut self) -> u64 {
        self.0 = self.0.wrapping_add(0x9e37_79b9_7f4a_7c15);
        let mut z = self.0;
        z = (z ^ (z >> 30)).wrapping_mul(0xbf58_476d_1ce4_e5b9);
        z = (z ^ (z >> 27)).wrapping_mul(0x94d0_49bb_1331_11eb);
        z ^ (z >> 31)
    }

    /// A number below `bound`, which is not 0.
    pub fn below(&mut self, bound: usize) -> usize {
        (((self.next() >> 32) * bound as u64) >> 32) as usize
    }

    /// True in `part` of `whole` cases.
    pub fn chance(&mut self, part: usize, whole: usize) -> bool {
        self.below(whole) < part
    }

    pub fn pick<T: Copy>(&mut self, of: &[T]) -> T {
        of[self.below(of.len())]
    }

    pub fn bytes(&mut self, count: usize) -> Vec<u8> {
        (0..count).map(|_| (self.next() >> 56) as u8).collect()
    }

    /// A word as fields hold it: small, at an edge, or any.
    pub fn word(&mut self) -> u32 {
        const EDGES: [u32; 10] = [0, 1, 5, 255, 256, 0x7fff_ffff, 0x8000_0000, 0xffff_fffe, 0xffff_ffff, 0x0102_0304];
        match self.below(4) {
            0 => self.below(320) as u32,
            1 => self.pick(&EDGES),
            _ => (self.next() >> 32) as u32,
        }
    }

    /// A u64 likewise.
    pub fn long(&mut self) -> u64 {
        const EDGES: [u64; 8] =
            [0, 1, 0xffff_ffff, 0x1_0000_0000, 0x7fff_ffff_ffff_ffff, 0x8000_0000_0000_0000, u64::MAX, 0x0102_0304_0506_0708];
        match self.below(4) {
            0 => self.below(320) as u64,
            1 => self.pick(&EDGES),
            _ => self.next(),
        }
    }
}
