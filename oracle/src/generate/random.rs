//! A seeded source of numbers (splitmix64): the same seed gives the same
//! numbers on every machine.

pub struct Rng {
    state: u64,
}

fn mix(mut z: u64) -> u64 {
    z = (z ^ (z >> 30)).wrapping_mul(0xbf58_476d_1ce4_e5b9);
    z = (z ^ (z >> 27)).wrapping_mul(0x94d0_49bb_1331_11eb);
    z ^ (z >> 31)
}

impl Rng {
    /// The source for sheet `index` of a seed.
    pub fn new(seed: u64, index: u64) -> Self {
        Self {
            state: mix(seed).wrapping_add(mix(index ^ 0x5851_f42d_4c95_7f2d)),
        }
    }

    pub fn bits(&mut self) -> u64 {
        self.state = self.state.wrapping_add(0x9e37_79b9_7f4a_7c15);
        mix(self.state)
    }

    /// A whole number from 0 to `n` less one.
    pub fn below(&mut self, n: usize) -> usize {
        (self.bits() % n as u64) as usize
    }

    /// A whole number from `low` to `high`, both included.
    pub fn between(&mut self, low: usize, high: usize) -> usize {
        low + self.below(high - low + 1)
    }

    /// True once in `n` times.
    pub fn once_in(&mut self, n: usize) -> bool {
        self.below(n) == 0
    }

    /// A float from 0 to below 1.
    pub fn unit(&mut self) -> f64 {
        (self.bits() >> 11) as f64 / 9_007_199_254_740_992.0
    }

    /// A float from `low` to `high`.
    pub fn range(&mut self, low: f64, high: f64) -> f64 {
        low + self.unit() * (high - low)
    }

    /// `size` times a number from 0.8 to 1.2.
    pub fn about(&mut self, size: f64) -> f64 {
        size * self.range(0.8, 1.2)
    }

    /// One of the choices.
    pub fn pick<T: Copy>(&mut self, choices: &[T]) -> T {
        choices[self.below(choices.len())]
    }

    /// A small signed number of any size from 1e-12 up to `largest`, or 0.
    pub fn noise(&mut self, largest: f64) -> f64 {
        let size = self.pick(&[0.0, 1e-9, 1e-6, 1e-4, 1e-2, 0.1, 0.3, 1.0, 1.0]);
        self.range(-1.0, 1.0) * size * largest
    }
}
