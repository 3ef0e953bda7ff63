//! A small deterministic generator of interesting inputs.

pub mod calls;
pub mod chunks;
pub mod labels;
pub mod lists;
pub mod marks;
pub mod names;
pub mod pairs;
pub mod short_tables;
pub mod tables;
pub mod texts;

/// A stream of numbers from a seed (xorshift, 64 bits).
pub struct Source {
    state: u64,
}

impl Source {
    /// A stream; a seed always gives the same one.
    pub fn new(seed: u64) -> Source {
        let mixed = seed.wrapping_mul(0x9E37_79B9_7F4A_7C15) ^ 0x2545_F491_4F6C_DD1D;
        Source { state: mixed.max(1) }
    }

    /// The next number of the stream.
    pub fn number(&mut self) -> u64 {
        self.state ^= self.state << 13;
        self.state ^= self.state >> 7;
        self.state ^= self.state << 17;
        self.state.wrapping_mul(0x2545_F491_4F6C_DD1D)
    }

    /// A number below a limit that is not 0.
    pub fn below(&mut self, limit: usize) -> usize {
        ((self.number() >> 33) as usize) % limit
    }

    /// A number from `low` to `high`, both included.
    pub fn between(&mut self, low: usize, high: usize) -> usize {
        low + self.below(high - low + 1)
    }

    /// True once in `turns`.
    pub fn once_in(&mut self, turns: usize) -> bool {
        self.below(turns) == 0
    }

    /// One of some values.
    pub fn pick<T: Copy>(&mut self, from: &[T]) -> T {
        from[self.below(from.len())]
    }

    /// Any byte.
    pub fn byte(&mut self) -> u8 {
        self.below(256) as u8
    }

    /// How many faults an input gets: none half of the time, at most three.
    pub fn faults(&mut self) -> usize {
        self.pick(&[0, 0, 0, 0, 1, 1, 2, 3])
    }
}
