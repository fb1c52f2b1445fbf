//! Random numbers (xorshift64*), from a seed that is printed.

pub struct Random(u64);

impl Random {
    pub fn new(seed: u64, episode: u64) -> Random {
        let mixed = seed.wrapping_mul(0x9e37_79b9_7f4a_7c15).wrapping_add(episode).wrapping_mul(0xd1b5_4a32_d192_ed03);
        let mut random = Random(mixed.wrapping_add(0x8cb9_2ba7_2f3d_8dd7).max(1));
        for _ in 0..8 {
            random.any();
        }
        random
    }

    pub fn any(&mut self) -> u32 {
        self.0 ^= self.0 >> 12;
        self.0 ^= self.0 << 25;
        self.0 ^= self.0 >> 27;
        (self.0.wrapping_mul(0x2545_f491_4f6c_dd1d) >> 32) as u32
    }

    pub fn below(&mut self, n: u32) -> u32 {
        ((u64::from(self.any()) * u64::from(n)) >> 32) as u32
    }

    pub fn byte(&mut self) -> u8 {
        self.below(256) as u8
    }

    pub fn percent(&mut self, n: u32) -> bool {
        self.below(100) < n
    }

    pub fn one_of<T: Copy>(&mut self, values: &[T]) -> T {
        values[self.below(values.len() as u32) as usize]
    }
}
