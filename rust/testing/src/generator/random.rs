//! A random source with a seed. The same seed gives the same numbers on every machine.

/// SplitMix64: one word of state, and no state outside of it.
#[derive(Clone, Debug)]
pub struct Random {
    state: u64,
}

impl Random {
    /// The source that a seed gives.
    pub fn new(seed: u64) -> Random {
        Random { state: seed }
    }

    /// The source of one case of a run, so that a case can be made again without those before it.
    pub fn of_case(seed: u64, index: u64) -> Random {
        let of_seed = Random::new(seed).number();
        let of_index = Random::new(!index).number();
        Random::new(of_seed ^ of_index.rotate_left(32))
    }

    /// The next 64 bits.
    pub fn number(&mut self) -> u64 {
        self.state = self.state.wrapping_add(0x9E37_79B9_7F4A_7C15);
        let mut mixed = self.state;
        mixed = (mixed ^ (mixed >> 30)).wrapping_mul(0xBF58_476D_1CE4_E5B9);
        mixed = (mixed ^ (mixed >> 27)).wrapping_mul(0x94D0_49BB_1331_11EB);
        mixed ^ (mixed >> 31)
    }

    /// A number from 0 up to but without the bound; 0 for the bound 0.
    pub fn below(&mut self, bound: usize) -> usize {
        if bound == 0 {
            return 0;
        }
        (self.number() % bound as u64) as usize
    }

    /// A number from the low end to the high end, both included; the low end where the high one lies under it.
    pub fn between(&mut self, low: i64, high: i64) -> i64 {
        if high <= low {
            return low;
        }
        let span = high.wrapping_sub(low) as u64;
        match span.checked_add(1) {
            Some(count) => low.wrapping_add((self.number() % count) as i64),
            None => self.number() as i64,
        }
    }

    /// True in so many of a hundred cases.
    pub fn chance(&mut self, percent: u64) -> bool {
        self.number() % 100 < percent
    }

    /// One of these.
    pub fn pick<T: Copy, const N: usize>(&mut self, from: [T; N]) -> T {
        const { assert!(N > 0) };
        from[self.below(N)]
    }

    /// One of these; none of an empty list.
    pub fn one_of<T: Copy>(&mut self, from: &[T]) -> Option<T> {
        from.get(self.below(from.len())).copied()
    }

    /// A byte.
    pub fn byte(&mut self) -> u8 {
        self.number() as u8
    }

    /// So many bytes.
    pub fn bytes(&mut self, count: usize) -> Vec<u8> {
        (0..count).map(|_| self.byte()).collect()
    }

    /// A number of so many bytes, 1 to 4, in which the ends of its range, zero and small numbers are frequent.
    pub fn value(&mut self, width: usize) -> u32 {
        let most = (1u64 << (8 * width.clamp(1, 4))) - 1;
        let any = self.number() & most;
        let near = self.number() % 256;
        self.pick([0, 1, most, most / 2, most / 2 + 1, any, any, any, near, most - near]) as u32
    }
}
