//! A disk over memory.
ghost use Rattle.std.specs.Prelude.{◌≡◌};

use log_file::{Durable, Storage};
use std::alloc::Global;
use std::fs::TryLockError;
use std::io;
use std::io::{ErrorKind, Write};

/// Takes some bytes a write, and fails at one call, a write or a sync, but at none before or after it.
#[derive(Drop)]
pub(crate) struct Disk {
    bytes: Vec<u8>,
    kept: usize,
    piece_len: usize,
    calls: usize,
    failing: usize,
    failure: ErrorKind,
    // Whether another opener has its lock.
    is_held: bool,
}

impl Disk {
    /// A disk that is empty. Its calls are counted from 0.
    pub(crate) fn new(alloc: Global, piece_len: usize, failing: usize, failure: ErrorKind) -> Disk {
        Disk {
            bytes: Vec::new(alloc),
            kept: 0,
            piece_len,
            calls: 0,
            failing,
            failure,
            is_held: false,
        }
    }

    /// This disk, whose lock another opener has.
    pub(crate) fn held_by_another(self) -> Disk {
        Disk {
            is_held: true,
            ..self
        }
    }

    /// All that was written.
    pub(crate) fn bytes(&self) -> &[u8] {
        self.bytes.as_slice()
    }

    /// What was written before the last sync.
    pub(crate) fn kept(&self) -> &[u8] {
        self.bytes.get(..self.kept).unwrap_or(&[])
    }

    /// How often it was called.
    pub(crate) fn calls(&self) -> usize {
        self.calls
    }

    // One call more, which fails where its turn has come.
    fn call(&mut self) -> io::Result<()>
        ensures { self.new.bytes ≡ self.old.bytes }
    {
        let call = self.calls;
        self.calls = call.saturating_add(1);
        if call == self.failing {
            return Err(io::Error::from(self.failure));
        }
        Ok(())
    }
}

impl Write for Disk {
    ghost use Rattle.std.specs.Prelude.{Some};

    ghost contents = { λ s. Some s.bytes.items };

    fn write(&mut self, buf: &[u8]) -> io::Result<usize> {
        self.call()?;
        let n = buf.len().min(self.piece_len);
        self.bytes.extend_from_slice(&buf[..n])?;
        Ok(n)
    }

    fn flush(&mut self) -> io::Result<()> {
        Ok(())
    }
}

impl Durable for Disk {
    ghost use Rattle.std.specs.Prelude.{Some, take};

    ghost kept = { λ s. Some (take s.kept s.bytes.items) };

    fn sync(&mut self) -> io::Result<()> {
        self.call()?;
        self.kept = self.bytes.len();
        Ok(())
    }

    fn size(&self) -> io::Result<u64> {
        Ok(self.bytes.len() as u64)
    }
}

impl Storage for Disk {
    ghost use Rattle.std.specs.Prelude.{Some, not};

    ghost grants_lock = { λ s. Some (not s.is_held) };

    fn take_lock(&self) -> Result<(), TryLockError> {
        if self.is_held {
            return Err(TryLockError::WouldBlock);
        }
        Ok(())
    }

    fn read_from(&self, piece: &mut [u8], from: u64) -> io::Result<usize> {
        let at = self.bytes.len().min(from as usize);
        let rest = &self.bytes[at..];
        let n = rest.len().min(piece.len());
        piece[..n].copy_from_slice(&rest[..n]);
        Ok(n)
    }

    fn cut(&mut self, bytes: u64) -> io::Result<()> {
        self.call()?;
        self.bytes.truncate(bytes as usize);
        self.kept = self.bytes.len();
        Ok(())
    }
}
