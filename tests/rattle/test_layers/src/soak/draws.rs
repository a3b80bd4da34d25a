//! What a seed draws.
ghost use Rattle.std.specs.Prelude.{◌<◌};

use rand_core::{Rng, SeedableRng};
use rand_pcg::Lcg64Xsh32;

/// Numbers, as a seed draws them.
#[derive(Drop)]
pub struct Draws {
    words: Lcg64Xsh32,
}

impl Draws {
    pub fn new(seed: u64) -> Draws {
        Draws {
            words: Lcg64Xsh32::seed_from_u64(seed),
        }
    }

    /// A number below `n`.
    pub fn below(&mut self, n: u32) -> u32
        requires { 0 < n }
        ensures { result < n }
    {
        self.words.next_u32() % n
    }

    /// One case of `n`.
    pub fn is_one_of(&mut self, n: u32) -> bool
        requires { 0 < n }
    {
        self.below(n) == 0
    }

    /// One of the nodes 1 to `count`.
    pub fn node(&mut self, count: u8) -> u8 {
        (self.words.next_u32() % u32::from(count.max(1))) as u8 + 1
    }
}
