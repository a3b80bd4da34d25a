//! What serves a client that leaves with a job, and those that come after it: a gate that notes how
//! far they are, streams, arrivals, and a clock that stands still until the next one is served.
ghost use Rattle.std.specs.Prelude.{false};

use beanpax::memory::{Ending, PieceReader};
use beanpax::{ByteIn, Failed, Writing};
use node_threads::{Accept, Actor, Gate, Point, Seconds};
use std::alloc::Global;
use std::io::PipeWriter;
use std::rt::Clock;
use std::sync::atomic::{AtomicBool, AtomicU64, Ordering};
use std::thread::sleep;
use std::time::Duration;

/// How often memory is taken, and when.
#[derive(Clone, Copy, Debug, PartialEq, Eq)]
pub enum Taking {
    /// So many times before the client leaves.
    Times(u64),
    /// Before it leaves, until it is refused.
    BeforeItLeaves,
    /// When its end was handed in, until it is refused.
    WhenItHasLeft,
    /// In the end, until it is refused.
    InTheEnd,
}

/// So often memory is taken at most.
const MOST_TAKEN: u64 = 2_000_000;

/// So many milliseconds a thread waits for another at most.
const MOST_WAITED: u32 = 5_000;

/// So many lie between the first turn of the node and the first client, and so many before that
/// leaves: the other threads have done then what they had to do, and take no memory.
const BEFORE_IT_COMES: u64 = 300;

const BEFORE_IT_LEAVES: u64 = 200;

/// So many lie between two seconds.
const BETWEEN_SECONDS: u64 = 5;

/// How far the client is. Who is told where the threads stand notes it.
#[derive(Drop)]
pub struct Leave {
    alloc: Global,
    taking: Taking,
    taken: AtomicU64,
    has_begun: AtomicBool,
    is_leaving: AtomicBool,
    has_left: AtomicBool,
    has_next: AtomicBool,
}

impl Leave {
    /// Nobody has come yet.
    pub fn new(alloc: Global, taking: Taking) -> Leave {
        Leave {
            alloc,
            taking,
            taken: AtomicU64::new(0),
            has_begun: AtomicBool::new(false),
            is_leaving: AtomicBool::new(false),
            has_left: AtomicBool::new(false),
            has_next: AtomicBool::new(false),
        }
    }

    /// How often memory was taken.
    pub fn taken(&self) -> u64 {
        self.taken.load(Ordering::SeqCst)
    }

    /// All clients have left.
    pub fn end(&self) {
        if self.taking == Taking::InTheEnd {
            self.take(MOST_TAKEN);
        }
    }

    // The client is about to leave.
    fn leave(&self) {
        match self.taking {
            Taking::Times(count) => self.take(count),
            Taking::BeforeItLeaves => self.take(MOST_TAKEN),
            Taking::WhenItHasLeft | Taking::InTheEnd => {}
        }
        self.is_leaving.store(true, Ordering::SeqCst);
    }

    // A node has a turn: the first one after the client left is that in which its end is seen to.
    fn turn(&self) {
        self.has_begun.store(true, Ordering::SeqCst);
        if self.is_leaving.load(Ordering::SeqCst) && !self.has_left.swap(true, Ordering::SeqCst) {
            if self.taking == Taking::WhenItHasLeft {
                self.take(MOST_TAKEN);
            }
        }
    }

    // Takes memory so many times, or until it is refused.
    fn take(&self, most: u64) {
        for _ in 0..most {
            let mut memory = Vec::new(self.alloc);
            if memory.push(0_u8).is_err() {
                return;
            }
            self.taken.fetch_add(1, Ordering::SeqCst);
        }
    }
}

impl Gate for Leave {
    fn at(&self, who: Actor, point: Point) {
        if point == Point::Turn && matches!(who, Actor::Node(_)) {
            self.turn();
        }
    }
}

/// What a client sends: the one that leaves, or one that comes after it.
#[derive(Drop)]
pub struct Sent<'a, R> {
    rt: &'a R,
    reader: PieceReader<'a>,
    leave: &'a Leave,
    leaves: bool,
    reads: u64,
}

impl<'a, R> Sent<'a, R> {
    /// These bytes at once, and then the end.
    pub fn new(rt: &'a R, bytes: &'a [u8], leave: &'a Leave, leaves: bool) -> Sent<'a, R> {
        Sent {
            rt,
            reader: PieceReader::new(bytes, 4096, Ending::End),
            leave,
            leaves,
            reads: 0,
        }
    }
}

impl<'a, R: Clock> ByteIn for Sent<'a, R> {
    ghost remaining = { λ r. ⟦<PieceReader<'a> as ByteIn>⟧.remaining r.reader };

    ghost has_failed = { λ r. ⟦<PieceReader<'a> as ByteIn>⟧.has_failed r.reader };

    ghost has_ended = { λ r. ⟦<PieceReader<'a> as ByteIn>⟧.has_ended r.reader };

    fn read(&mut self, buf: &mut [u8]) -> Result<usize, Failed> {
        self.reads = self.reads.saturating_add(1);
        if !self.leaves {
            self.leave.has_next.store(true, Ordering::SeqCst);
        } else if self.reads == 2 {
            sleep(self.rt, Duration::from_millis(BEFORE_IT_LEAVES));
            self.leave.leave();
        }
        self.reader.read(buf)
    }
}

// Waits for this.
fn wait_for<R: Clock>(rt: &R, event: &AtomicBool) {
    for _ in 0..MOST_WAITED {
        if event.load(Ordering::SeqCst) {
            return;
        }
        sleep(rt, Duration::from_millis(1));
    }
}

/// Clients that come one after the other, the last of the list first: the next when the one before
/// it has left, and the one after that when the next is served. So no other thread takes memory
/// while a client leaves.
#[derive(Drop)]
pub struct Arrivals<'a, R> {
    pub rt: &'a R,
    pub leave: &'a Leave,
    pub clients: Vec<(Sent<'a, R>, Writing<PipeWriter>)>,
    pub count: u8,
    pub has_ended: bool,
}

impl<'a, R: Clock + Sync> Accept for Arrivals<'a, R> {
    type R = Sent<'a, R>;

    type W = Writing<PipeWriter>;

    ghost has_failed = { λ _. false };

    ghost has_ended = { λ arrivals. arrivals.has_ended };

    fn next(&mut self) -> Result<Option<(Sent<'a, R>, Writing<PipeWriter>)>, Failed> {
        self.count = self.count.saturating_add(1);
        match self.count {
            1 => {
                wait_for(self.rt, &self.leave.has_begun);
                sleep(self.rt, Duration::from_millis(BEFORE_IT_COMES));
            }
            2 => wait_for(self.rt, &self.leave.has_left),
            _ => wait_for(self.rt, &self.leave.has_next),
        }
        match self.clients.pop() {
            Some(client) => Ok(Some(client)),
            None => {
                self.has_ended = true;
                Ok(None)
            }
        }
    }
}

/// A clock that stands still until the next client is served.
#[derive(Drop)]
pub struct Still<'a, R> {
    pub rt: &'a R,
    pub leave: &'a Leave,
    pub second: u64,
}

impl<'a, R: Clock> Seconds for Still<'a, R> {
    fn next(&mut self) -> Option<u64> {
        wait_for(self.rt, &self.leave.has_next);
        sleep(self.rt, Duration::from_millis(BETWEEN_SECONDS));
        if self.second >= 1 << 40 {
            return None;
        }
        self.second += 1;
        Some(self.second)
    }
}
