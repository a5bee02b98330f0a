//! A small seeded generator (splitmix64).

pub struct Rng(u64);

impl Rng {
    pub fn new(seed: u64) -> Rng {
        Rng(seed)
    }

    pub fn word(&mut self) -> u64 {
        self.0 = self.0.wrapping_add(0x9e37_79b9_7f4a_7c15);
        let mut z = self.0;
        z = (z ^ (z >> 30)).wrapping_mul(0xbf58_476d_1ce4_e5b9);
        z = (z ^ (z >> 27)).wrapping_mul(0x94d0_49bb_1331_11eb);
        z ^ (z >> 31)
    }

    /// From 0 to `count` - 1; `count` is positive.
    pub fn below(&mut self, count: usize) -> usize {
        (self.word() % count as u64) as usize
    }

    /// From `low` to `high`, both among them.
    pub fn range(&mut self, low: i64, high: i64) -> i64 {
        let count = (high - low) as u64 + 1;
        low + (self.word() % count) as i64
    }

    /// True once in `count` times.
    pub fn once_in(&mut self, count: usize) -> bool {
        self.below(count) == 0
    }

    pub fn pick<T: Copy>(&mut self, from: &[T]) -> T {
        from[self.below(from.len())]
    }

    pub fn shuffle<T>(&mut self, items: &mut [T]) {
        for k in (1..items.len()).rev() {
            items.swap(k, self.below(k + 1));
        }
    }

    /// A byte that may stand in a line.
    pub fn printable(&mut self) -> u8 {
        self.range(32, 126) as u8
    }

    /// A byte that may not stand in a line, nor end it.
    pub fn unprintable(&mut self) -> u8 {
        loop {
            let byte = match self.below(4) {
                0 => self.pick(&[0, 9, 13, 31, 127, 128, 255]),
                1 => self.below(32) as u8,
                _ => self.range(127, 255) as u8,
            };
            if byte != b'\n' {
                return byte;
            }
        }
    }
}
