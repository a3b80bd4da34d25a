//! What a seed draws.
ghost use Rattle.std.specs.Prelude.{◌<◌};

use rand_core::{Rng, SeedableRng};
use rand_pcg::Lcg64Xsh32;

/// Numbers, as a seed draws them.
#[derive(Drop)]
pub struct Draws {
    words: Lcg64Xsh32,
}

impl Draws {
    pub fn new(seed: u64) -> Draws {
        Draws {
            words: Lcg64Xsh32::seed_from_u64(seed),
        }
    }

    /// A number below `n`.
    pub fn below(&mut self, n: u32) -> u32
        requires { 0 < n }
        ensures { result < n }
    {
        self.words.next_u32() % n
    }

    /// A place below `len`, or 0.
    pub fn place(&mut self, len: usize) -> usize {
        self.words.next_u32() as usize % len.max(1)
    }

    /// A number from the first to the last of these.
    pub fn between(&mut self, first: u64, last: u64) -> u64 {
        first + u64::from(self.words.next_u32()) % (last.saturating_sub(first) + 1)
    }

    /// Whether one lot of so many is drawn.
    pub fn one_in(&mut self, n: u32) -> bool {
        self.below(n) == 0
    }
}
