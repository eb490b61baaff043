//! Random numbers from a seed, and picks that most of the generator shares.

/// Splitmix64: short, and the same everywhere.
#[derive(Clone, Debug)]
pub struct Rng(u64);

impl Rng {
    pub fn new(seed: u64) -> Rng {
        Rng(seed)
    }

    pub fn draw(&mut self) -> u64 {
        self.0 = self.0.wrapping_add(0x9e37_79b9_7f4a_7c15);
        let mut z = self.0;
        z = (z ^ (z >> 30)).wrapping_mul(0xbf58_476d_1ce4_e5b9);
        z = (z ^ (z >> 27)).wrapping_mul(0x94d0_49bb_1331_11eb);
        z ^ (z >> 31)
    }

    /// A number below `n`, which is above 0.
    pub fn below(&mut self, n: usize) -> usize {
        (self.draw() % n as u64) as usize
    }

    /// A number from `low` to `high`, both included.
    pub fn between(&mut self, low: usize, high: usize) -> usize {
        low + self.below(high - low + 1)
    }

    pub fn chance(&mut self, percent: usize) -> bool {
        self.below(100) < percent
    }

    pub fn pick<T: Copy>(&mut self, items: &[T]) -> T {
        items[self.below(items.len())]
    }

    pub(super) fn shuffle<T>(&mut self, items: &mut [T]) {
        for i in (1..items.len()).rev() {
            items.swap(i, self.below(i + 1));
        }
    }

    /// Mostly a small number, so that spans repeat; sometimes any.
    pub(super) fn span(&mut self) -> u32 {
        if self.chance(90) { self.below(40) as u32 } else { self.draw() as u32 }
    }
}

/// One of the numbers below `count` for which `wanted` holds.
pub(super) fn some(rng: &mut Rng, count: usize, wanted: impl Fn(usize) -> bool) -> Option<usize> {
    let numbers: Vec<usize> = (0..count).filter(|&n| wanted(n)).collect();
    (!numbers.is_empty()).then(|| rng.pick(&numbers))
}
