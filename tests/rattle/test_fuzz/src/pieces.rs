//! Bytes that come in pieces of drawn lengths.
ghost use Rattle.std.specs.Prelude.{◌<◌};

use crate::draws::Draws;
use std::io;
use std::io::Read;

// How long the pieces of an input are at most.
static LONGEST: [usize; 6] = [1, 2, 5, 30, 300, 5000];

/// Gives the bytes of a slice, at each read as many as are drawn.
#[derive(Drop)]
pub struct DrawnPieces<'a> {
    rest: &'a [u8],
    longest: usize,
    draws: Draws,
    ghost moves: { 0 < longest },
}

impl<'a> DrawnPieces<'a> {
    pub fn new(bytes: &'a [u8], mut draws: Draws) -> DrawnPieces<'a> {
        DrawnPieces {
            rest: bytes,
            longest: draws.pick(&LONGEST).max(1),
            draws,
        }
    }
}

impl Read for DrawnPieces<'_> {
    fn read(&mut self, buf: &mut [u8]) -> io::Result<usize> {
        let drawn = self.draws.up_to(self.longest);
        let n = drawn.min(buf.len()).min(self.rest.len());
        let (piece, rest) = self.rest.split_at(n);
        buf[..n].copy_from_slice(piece);
        self.rest = rest;
        Ok(n)
    }
}
