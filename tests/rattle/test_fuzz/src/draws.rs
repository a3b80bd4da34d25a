//! What a seed draws.
ghost use Rattle.std.specs.Prelude.{◌<◌, ◌≤◌, length};

use rand_core::{Rng, SeedableRng};
use rand_pcg::Lcg64Xsh32;

#[derive(Drop)]
pub struct Draws {
    words: Lcg64Xsh32,
}

impl Draws {
    pub fn new(seed: u64) -> Draws {
        Draws {
            words: Lcg64Xsh32::seed_from_u64(seed),
        }
    }

    /// A number below `n`.
    pub fn below(&mut self, n: usize) -> usize
        requires { 0 < n }
        ensures { result < n }
    {
        self.words.next_u32() as usize % n
    }

    /// A number from 1 to `n`.
    pub fn up_to(&mut self, n: usize) -> usize
        requires { 0 < n }
        ensures some { 0 < result }
        ensures most { result ≤ n }
    {
        self.below(n) + 1
    }

    /// Whether a chance of one in `n` comes true.
    pub fn one_in(&mut self, n: usize) -> bool
        requires { 0 < n }
    {
        self.below(n) == 0
    }

    /// One of the items.
    pub fn pick<T: Copy>(&mut self, items: &[T]) -> T
        requires { 0 < length items.now }
    {
        items[self.below(items.len())]
    }

    pub fn byte(&mut self) -> u8 {
        self.below(256) as u8
    }
}
