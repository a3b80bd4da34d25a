//! What a seed draws.
ghost use Rattle.std.specs.Prelude.{◌<◌};

use ballot::Members;
use bean_words::{Body, Op};
use object::Act;
use rand_core::{Rng, SeedableRng};
use rand_pcg::Lcg64Xsh32;
use std::alloc::Global;
use std::test::Fail;

/// Numbers and acts, as a seed draws them.
#[derive(Drop)]
pub struct Draws {
    words: Lcg64Xsh32,
}

impl Draws {
    pub fn new(seed: u64) -> Draws {
        Draws {
            words: Lcg64Xsh32::seed_from_u64(seed),
        }
    }

    /// A number below `n`.
    pub fn below(&mut self, n: u32) -> u32
        requires { 0 < n }
        ensures { result < n }
    {
        self.words.next_u32() % n
    }

    /// One, three or five members.
    pub fn members(&mut self) -> Result<Members, Fail> {
        let count = match self.below(3) {
            0 => 1,
            1 => 3,
            _ => 5,
        };
        Ok(Members::new(count).ok_or("no members")?)
    }

    /// One of the nodes 1 to `count`.
    pub fn node(&mut self, count: u8) -> u8 {
        (self.words.next_u32() % u32::from(count.max(1))) as u8 + 1
    }

    /// A place below `len`, or 0.
    pub fn place(&mut self, len: usize) -> usize {
        self.words.next_u32() as usize % len.max(1)
    }

    /// What a session asks for: mostly to put, reserve or delete a job, at times to leave.
    pub fn act(&mut self, alloc: Global) -> Result<Act<Op>, Fail> {
        let id = u64::from(self.below(12)) + 1;
        let seconds = self.below(4);
        Ok(match self.below(20) {
            0..8 => self.put(alloc)?,
            8..12 => Act::Do(Op::Reserve { seconds: None }),
            12..15 => Act::Do(Op::Reserve {
                seconds: Some(seconds),
            }),
            15..19 => Act::Do(Op::Delete(id)),
            _ => Act::Close,
        })
    }

    fn put(&mut self, alloc: Global) -> Result<Act<Op>, Fail> {
        Ok(Act::Do(Op::Put {
            pri: self.below(3),
            delay: self.below(2),
            ttr: self.below(5),
            body: Body::new(alloc, b"x")?,
        }))
    }
}
