//! A small generator of random numbers (splitmix64): the same seed gives the same sheets anywhere.

pub struct Random {
    state: u64,
}

/// Words at which a reader's tests turn over.
const EDGES: [u32; 16] = [
    0,
    1,
    2,
    3,
    6,
    7,
    8,
    127,
    128,
    255,
    256,
    65_535,
    65_536,
    0x7fff_ffff,
    0x8000_0000,
    u32::MAX,
];

/// Names of one low half: 9, 65,545 and 2,147,483,657.
const LOW_HALF: u32 = 9;
const HIGH_HALVES: [u32; 3] = [0, 1, 0x8000];

impl Random {
    pub fn new(seed: u64) -> Random {
        Random { state: seed }
    }

    /// The generator of the sheet `index` in the run `seed`, so that each sheet can be made alone.
    pub fn of(seed: u64, index: u64) -> Random {
        let mut both = Random::new(seed);
        let start = both.draw();
        Random::new(start ^ index.wrapping_mul(0xd134_2543_de82_ef95))
    }

    pub fn draw(&mut self) -> u64 {
        self.state = self.state.wrapping_add(0x9e37_79b9_7f4a_7c15);
        let mut z = self.state;
        z = (z ^ (z >> 30)).wrapping_mul(0xbf58_476d_1ce4_e5b9);
        z = (z ^ (z >> 27)).wrapping_mul(0x94d0_49bb_1331_11eb);
        z ^ (z >> 31)
    }

    pub fn word(&mut self) -> u32 {
        self.draw() as u32
    }

    /// A number below `n`, which is not 0.
    pub fn below(&mut self, n: usize) -> usize {
        (self.draw() % n as u64) as usize
    }

    /// A number from `low` to `high`, both counted.
    pub fn within(&mut self, low: usize, high: usize) -> usize {
        low + self.below(high - low + 1)
    }

    /// True once in `n` times.
    pub fn once_in(&mut self, n: usize) -> bool {
        self.below(n) == 0
    }

    /// A word of any size, small and special ones more often than by chance.
    pub fn any(&mut self) -> u32 {
        match self.below(4) {
            0 => 0,
            1 => EDGES[self.below(EDGES.len())],
            2 => self.below(300) as u32,
            _ => self.word(),
        }
    }

    pub fn edge(&mut self) -> u32 {
        EDGES[self.below(EDGES.len())]
    }

    /// A name that others are likely to share, or to differ from by its high half alone; or any.
    pub fn name(&mut self) -> u32 {
        match self.below(8) {
            0 => 1,
            1 => u32::MAX,
            2 => self.within(1, 20) as u32,
            3 => self.within(65_530, 65_545) as u32,
            4 | 5 => HIGH_HALVES[self.below(3)] << 16 | LOW_HALF,
            _ => self.word().max(1),
        }
    }

    /// `n` different names in no order, at most 65,535: the first or the last ones, those around 65,536, all of one low half,
    /// three of each low half, or any.
    pub fn names(&mut self, n: usize) -> Vec<u32> {
        let count = n as u32;
        let low = self.within(1, 65_535) as u32;
        let mut names: Vec<u32> = match self.below(8) {
            0 => (1..=count).collect(),
            1 => (0..count).map(|i| u32::MAX - i).collect(),
            2 => (0..count).map(|i| 65_536 - count / 2 + i).collect(),
            3 => self.distinct(n, u32::MAX).iter().map(|i| i + 1).collect(),
            4 | 5 => (0..count).map(|i| i << 16 | low).collect(),
            _ => (0..count)
                .map(|i| HIGH_HALVES[i as usize % 3] << 16 | (i / 3 + 1))
                .collect(),
        };
        self.shuffle(&mut names);
        names
    }

    pub fn shuffle(&mut self, items: &mut [u32]) {
        for last in (1..items.len()).rev() {
            items.swap(last, self.below(last + 1));
        }
    }

    /// `n` different words below `end`, in no order; `end` is far above `n`.
    pub fn distinct(&mut self, n: usize, end: u32) -> Vec<u32> {
        let mut seen = std::collections::HashSet::new();
        let mut found = Vec::with_capacity(n);
        while found.len() < n {
            let word = (self.draw() % u64::from(end)) as u32;
            if seen.insert(word) {
                found.push(word);
            }
        }
        found
    }
}
