//! Clients at the ends of pipes, and clocks: one that doesn't sleep, and one that stands still.
ghost use Rattle.std.specs.Prelude.{false};

use node_threads::{Accept, Seconds};
use session::{ByteOut, Failed, Reading, Writing};
use std::alloc::Global;
use std::fs::Files;
use std::io::{PipeReader, PipeWriter, Read, Write, pipe};
use std::process::Abort;
use std::rt::Clock;
use std::sync::atomic::{AtomicBool, Ordering};
use std::test::Fail;
use std::thread;
use std::time::Duration;

/// The server's ends of a client's pipes.
pub type Served = (Reading<PipeReader>, Writing<PipeWriter>);

/// A client's own ends.
#[derive(Drop)]
pub struct Client {
    to: PipeWriter,
    from: PipeReader,
}

impl Client {
    /// Sends this, and says whether the next bytes that it hears are those.
    pub fn asks(&mut self, command: &[u8], reply: &[u8]) -> bool {
        self.says(command) && self.hears(reply)
    }

    /// Sends this.
    pub fn says(&mut self, command: &[u8]) -> bool {
        self.to.write_all(command).is_ok()
    }

    /// Whether the next bytes that it hears are these.
    pub fn hears(&mut self, reply: &[u8]) -> bool {
        for byte in reply {
            if self.next_byte() != Some(*byte) {
                return false;
            }
        }
        true
    }

    /// The number that it hears next, with the byte behind it.
    pub fn number(&mut self) -> Option<u64> {
        let mut number: u64 = 0;
        for _ in 0..20u32 {
            let byte = self.next_byte()?;
            if !byte.is_ascii_digit() {
                return Some(number);
            }
            let digit = u64::from(byte.saturating_sub(b'0'));
            number = number.checked_mul(10)?.checked_add(digit)?;
        }
        None
    }

    /// Sends no more. What it is told is to be read.
    pub fn hang_up(self) -> PipeReader {
        let Client { to, from } = self;
        drop(to);
        from
    }

    fn next_byte(&mut self) -> Option<u8> {
        let mut heard = [0];
        match self.from.read(&mut heard) {
            Ok(1) => Some(heard[0]),
            _ => None,
        }
    }
}

/// A client, and what serves it.
pub fn connect(rt: &impl Files) -> Result<(Client, Served), Fail> {
    let (input, to) = pipe(rt)?;
    let (from, output) = pipe(rt)?;
    Ok((
        Client { to, from },
        (Reading::new(input), Writing::new(output)),
    ))
}

/// So many clients, and what serves them.
pub fn connect_all<R: Files + AllocGlobal>(
    rt: &R,
    count: u32,
) -> Result<(Vec<Client>, Vec<Served>), Fail> {
    let mut clients = Vec::new(rt.alloc());
    let mut all_served = Vec::new(rt.alloc());
    for _ in 0..count {
        let (client, served) = connect(rt)?;
        clients.push(client)?;
        all_served.push(served)?;
    }
    Ok((clients, all_served))
}

/// A client that has sent this and sends no more, and what serves it.
pub fn connect_once(rt: &impl Files, sent: &[u8]) -> Result<(PipeReader, Served), Fail> {
    let (mut client, served) = connect(rt)?;
    let _ = client.says(sent);
    Ok((client.hang_up(), served))
}

/// All that a client was told, when the server has gone.
pub fn told(alloc: Global, mut from: PipeReader) -> Result<Vec<u8>, Fail> {
    let mut told = Vec::new(alloc);
    from.read_to_end(&mut told)?;
    Ok(told)
}

/// Clients that come one after the other, the last of the list first.
#[derive(Drop)]
pub struct Queued<W> {
    clients: Vec<(Reading<PipeReader>, W)>,
    has_ended: bool,
}

impl<W> Queued<W> {
    /// These clients.
    pub fn new(clients: Vec<(Reading<PipeReader>, W)>) -> Queued<W> {
        Queued {
            clients,
            has_ended: false,
        }
    }
}

impl<W: ByteOut + Send + Drop> Accept for Queued<W> {
    type R = Reading<PipeReader>;

    type W = W;

    ghost has_failed = { λ _. false };

    ghost has_ended = { λ queued. queued.has_ended };

    fn next(&mut self) -> Result<Option<(Reading<PipeReader>, W)>, Failed> {
        match self.clients.pop() {
            Some(client) => Ok(Some(client)),
            None => {
                self.has_ended = true;
                Ok(None)
            }
        }
    }
}

/// The seconds 1, 2, 3, .. one after the other, until it is stopped.
#[derive(Drop)]
pub struct Hasty<'a> {
    pub second: u64,
    pub is_stopped: &'a AtomicBool,
}

impl<'a> Seconds for Hasty<'a> {
    fn next(&mut self) -> Option<u64> {
        for _ in 0..1000u32 {
            thread::yield_now();
        }
        if self.is_stopped.load(Ordering::SeqCst) || self.second >= 1 << 40 {
            return None;
        }
        self.second += 1;
        Some(self.second)
    }
}

/// So often a clock that stands still looks whether it is stopped, and so many milliseconds lie between two looks.
const MOST_NAPS: u32 = 30_000;

const NAP: u64 = 1;

/// No second passes until it is stopped. It ends the test, failed, where nobody stops it for half a minute.
#[derive(Drop)]
pub struct Still<'a, R> {
    rt: &'a R,
    is_stopped: &'a AtomicBool,
}

impl<'a, R> Still<'a, R> {
    /// It stands still from now on.
    pub fn new(rt: &'a R, is_stopped: &'a AtomicBool) -> Still<'a, R> {
        Still { rt, is_stopped }
    }
}

impl<'a, R: Clock + Abort> Seconds for Still<'a, R> {
    fn next(&mut self) -> Option<u64> {
        let rt = self.rt;
        for _ in 0..MOST_NAPS {
            if self.is_stopped.load(Ordering::SeqCst) {
                return None;
            }
            thread::sleep(rt, Duration::from_millis(NAP));
        }
        assert!(rt; false, "nobody was answered");
        None
    }
}
