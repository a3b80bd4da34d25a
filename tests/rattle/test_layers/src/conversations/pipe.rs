//! A link over memory.
ghost use Rattle.std.specs.Prelude.{◌≡◌, ◌<◌, Some, []};

use conversation::{Link, Pause};
use std::alloc::Global;

/// What a pipe does behind its last byte.
#[derive(Clone, Copy, Debug, PartialEq, Eq)]
pub enum Ending {
    /// It has ended.
    Ends,
    /// More may come.
    CarriesOn,
    /// It has failed.
    Fails,
}

/// Gives the bytes of a text, at most `piece_len` of them a read, and keeps what it gave and what is written, at most
/// `piece_len` bytes a write.
#[derive(Drop)]
pub struct Pipe {
    rest: &'static [u8],
    taken: Vec<u8>,
    given: Vec<u8>,
    piece_len: usize,
    ending: Ending,
}

impl Pipe {
    pub fn new(alloc: Global, input: &'static [u8], piece_len: usize, ending: Ending) -> Pipe
        ensures taken { ⟦<Pipe as Link>⟧.taken result ≡ Some [] }
        ensures given { ⟦<Pipe as Link>⟧.given result ≡ Some [] }
    {
        Pipe {
            rest: input,
            taken: Vec::new(alloc),
            given: Vec::new(alloc),
            piece_len,
            ending,
        }
    }

    /// What was written.
    pub fn given(&self) -> &[u8] {
        self.given.as_slice()
    }
}

impl Link for Pipe {
    ghost taken = { λ p. Some p.taken.items };

    ghost given = { λ p. Some p.given.items };

    fn read(&mut self, buf: &mut [u8]) -> Result<usize, Pause> {
        let n = buf.len().min(self.rest.len()).min(self.piece_len);
        if n == 0 {
            return match self.ending {
                Ending::Ends => Ok(0),
                Ending::CarriesOn => Err(Pause::Later),
                Ending::Fails => Err(Pause::Failed),
            };
        }
        let (piece, rest) = self.rest.split_at(n);
        if self.taken.extend_from_slice(piece).is_err() {
            return Err(Pause::Failed);
        }
        buf[..n].copy_from_slice(piece);
        self.rest = rest;
        Ok(n)
    }

    fn write(&mut self, bytes: &[u8]) -> Result<usize, Pause> {
        let n = bytes.len().min(self.piece_len);
        match self.given.extend_from_slice(&bytes[..n]) {
            Ok(()) => Ok(n),
            Err(_) => Err(Pause::Failed),
        }
    }
}
