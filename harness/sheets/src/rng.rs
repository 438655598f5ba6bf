//! A small seeded generator of numbers (SplitMix64), the same on every machine.

#[derive(Clone, Debug)]
pub struct Rng(u64);

impl Rng {
    /// `stream` tells apart the uses of one seed.
    pub fn new(stream: u64, seed: u64) -> Self {
        let mut rng = Rng(stream.wrapping_mul(0x9e37_79b9_7f4a_7c15) ^ seed);
        rng.next();
        rng
    }

    #[allow(clippy::should_implement_trait)] // it never ends, so that it is no iterator to its users
    pub fn next(&mut self) -> u64 {
        self.0 = self.0.wrapping_add(0x9e37_79b9_7f4a_7c15);
        let mut z = self.0;
        z = (z ^ (z >> 30)).wrapping_mul(0xbf58_476d_1ce4_e5b9);
        z = (z ^ (z >> 27)).wrapping_mul(0x94d0_49bb_1331_11eb);
        z ^ (z >> 31)
    }

    /// A number below `bound`.
    pub fn below(&mut self, bound: usize) -> usize {
        (self.next() % bound as u64) as usize
    }

    pub fn between(&mut self, low: usize, high: usize) -> usize {
        low + self.below(high - low + 1)
    }

    pub fn one_in(&mut self, many: usize) -> bool {
        self.below(many) == 0
    }

    pub fn pick<'a, T>(&mut self, list: &'a [T]) -> &'a T {
        &list[self.below(list.len())]
    }

    pub fn shuffle<T>(&mut self, list: &mut [T]) {
        for place in (1..list.len()).rev() {
            list.swap(place, self.below(place + 1));
        }
    }
}
