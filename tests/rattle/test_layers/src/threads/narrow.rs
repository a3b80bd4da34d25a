//! A writer that has room for some bytes.
ghost use Rattle.std.specs.Prelude.{None};

use session::{ByteOut, Failed, Writing};
use std::io::PipeWriter;

/// Takes so many bytes, and then fails.
#[derive(Drop)]
pub struct Narrow {
    to: Writing<PipeWriter>,
    room: usize,
    has_failed: bool,
}

impl Narrow {
    /// It has room for so many bytes.
    pub fn new(to: Writing<PipeWriter>, room: usize) -> Narrow {
        Narrow {
            to,
            room,
            has_failed: false,
        }
    }
}

impl ByteOut for Narrow {
    ghost contents = { λ _. None };

    ghost has_failed = { λ s. s.has_failed };

    fn write(&mut self, bytes: &[u8]) -> Result<usize, Failed> {
        if self.has_failed {
            return Err(Failed);
        }
        let count = bytes.len().min(self.room);
        if count == 0 && !bytes.is_empty() {
            self.has_failed = true;
            return Err(Failed);
        }
        match self.to.write(&bytes[..count]) {
            Ok(taken) => {
                self.room = self.room.saturating_sub(taken);
                Ok(taken)
            }
            Err(failed) => {
                self.has_failed = true;
                Err(failed)
            }
        }
    }
}
