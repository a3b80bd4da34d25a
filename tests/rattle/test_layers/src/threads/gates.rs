//! Gates that hold a thread until it is let go.
use node_threads::{Actor, Faults, Gate, Mishap, Point};
use std::process::Abort;
use std::rt::Clock;
use std::sync::atomic::{AtomicBool, AtomicU64, Ordering};
use std::thread;
use std::time::Duration;

/// So many turns the others have at most while a thread is held, and so often it looks whether it may go on.
const MOST_TURNS: u64 = 10_000;

const MOST_LOOKS: u64 = 100_000_000;

/// So many microseconds lie between two looks of a thread that sleeps meanwhile.
const NAP: u64 = 100;

/// Holds nobody.
pub struct Open;

impl Gate for Open {
    fn at(&self, _who: Actor, _point: Point) {}
}

/// Holds nobody, and ends the test, failed, when there were too many turns.
#[derive(Drop)]
pub struct Bounded<'a, R> {
    rt: &'a R,
    most: u64,
    turns: AtomicU64,
    of_nodes: AtomicU64,
}

impl<'a, R> Bounded<'a, R> {
    /// No turn was taken yet, and there are to be so many at most.
    pub fn new(rt: &'a R, most: u64) -> Bounded<'a, R> {
        Bounded {
            rt,
            most,
            turns: AtomicU64::new(0),
            of_nodes: AtomicU64::new(0),
        }
    }

    /// How many turns of nodes there were.
    pub fn turns_of_nodes(&self) -> u64 {
        self.of_nodes.load(Ordering::SeqCst)
    }
}

impl<'a, R: Abort> Gate for Bounded<'a, R> {
    fn at(&self, who: Actor, point: Point) {
        if point != Point::Turn {
            return;
        }
        if matches!(who, Actor::Node(_)) {
            self.of_nodes.fetch_add(1, Ordering::SeqCst);
        }
        let before = self.turns.fetch_add(1, Ordering::SeqCst);
        let rt = self.rt;
        assert!(rt; before < self.most, "too many turns");
    }
}

/// Where a thread is held.
#[derive(Drop)]
pub struct Hold {
    is_held: AtomicBool,
    may_go: AtomicBool,
    turns: AtomicU64,
    gave_up: AtomicBool,
}

impl Hold {
    /// Nobody is held yet.
    pub fn new() -> Hold {
        Hold {
            is_held: AtomicBool::new(false),
            may_go: AtomicBool::new(false),
            turns: AtomicU64::new(0),
            gave_up: AtomicBool::new(false),
        }
    }

    /// Lets the thread go on.
    pub fn release(&self) {
        self.may_go.store(true, Ordering::SeqCst);
    }

    /// Waits until a thread is held.
    pub fn await_held(&self) {
        for _ in 0..MOST_LOOKS {
            if self.is_held.load(Ordering::SeqCst) {
                return;
            }
            thread::yield_now();
        }
    }

    /// Whether a thread was held, and went on because it was let go.
    pub fn was_released(&self) -> bool {
        self.is_held.load(Ordering::SeqCst) && !self.gave_up.load(Ordering::SeqCst)
    }

    // Another thread has a turn.
    fn count_turn(&self) {
        self.turns.fetch_add(1, Ordering::SeqCst);
    }

    // Holds the thread that calls it.
    fn hold(&self) {
        self.is_held.store(true, Ordering::SeqCst);
        for _ in 0..MOST_LOOKS {
            if self.may_go.load(Ordering::SeqCst) {
                return;
            }
            if self.turns.load(Ordering::SeqCst) > MOST_TURNS {
                break;
            }
            thread::yield_now();
        }
        self.gave_up.store(true, Ordering::SeqCst);
    }
}

/// Holds a node at its turns.
#[derive(Drop)]
pub struct HoldsNode {
    pub node: u8,
    pub hold: Hold,
}

impl Gate for HoldsNode {
    fn at(&self, who: Actor, point: Point) {
        if who == Actor::Node(self.node) && point == Point::Turn {
            self.hold.hold();
        } else if point == Point::Turn {
            self.hold.count_turn();
        }
    }
}

/// Holds a node where its mishap is chosen, which is none.
#[derive(Drop)]
pub struct HoldsChoice {
    pub node: u8,
    pub hold: Hold,
}

impl Gate for HoldsChoice {
    fn at(&self, _who: Actor, point: Point) {
        if point == Point::Turn {
            self.hold.count_turn();
        }
    }
}

impl Faults for HoldsChoice {
    fn choose(&self, node: u8, _turn: u64) -> Mishap {
        if node == self.node {
            self.hold.hold();
        }
        Mishap::None
    }
}

/// Holds the worker that reads a piece first, wherever it reads one.
#[derive(Drop)]
pub struct HoldsReader {
    pub reader: AtomicU64,
    pub hold: Hold,
}

impl Gate for HoldsReader {
    fn at(&self, who: Actor, point: Point) {
        match (who, point) {
            (Actor::Worker(worker), Point::Piece) => {
                let worker = u64::from(worker);
                let _ = self
                    .reader
                    .compare_exchange(0, worker, Ordering::SeqCst, Ordering::SeqCst);
                if self.reader.load(Ordering::SeqCst) == worker {
                    self.hold.hold();
                }
            }
            (_, Point::Turn) => self.hold.count_turn(),
            _ => {}
        }
    }
}

/// Sees whether each piece is told after it was read, from a count of reads.
#[derive(Drop)]
pub struct SeesPieces<'a> {
    reads: &'a AtomicU64,
    pieces: AtomicU64,
    was_early: AtomicBool,
}

impl<'a> SeesPieces<'a> {
    /// No piece was told yet.
    pub fn new(reads: &'a AtomicU64) -> SeesPieces<'a> {
        SeesPieces {
            reads,
            pieces: AtomicU64::new(0),
            was_early: AtomicBool::new(false),
        }
    }

    /// How many pieces were told; none where one was told too early.
    pub fn pieces(&self) -> Option<u64> {
        if self.was_early.load(Ordering::SeqCst) {
            None
        } else {
            Some(self.pieces.load(Ordering::SeqCst))
        }
    }
}

impl<'a> Gate for SeesPieces<'a> {
    fn at(&self, _who: Actor, point: Point) {
        if point != Point::Piece {
            return;
        }
        let before = self.pieces.fetch_add(1, Ordering::SeqCst);
        if self.reads.load(Ordering::SeqCst) != before.wrapping_add(1) {
            self.was_early.store(true, Ordering::SeqCst);
        }
    }
}

/// Counts what is asked and answered, and holds the node at which the worker that asked last hands in, while it is told to.
#[derive(Drop)]
pub struct HoldsDesk {
    nodes: u8,
    asked: AtomicU64,
    answered: AtomicU64,
    last: AtomicU64,
    /// The workers that asked, a bit for each.
    workers: AtomicU64,
    held: AtomicU64,
}

impl HoldsDesk {
    /// Nobody has asked yet, in a cluster of so many nodes.
    pub fn new(nodes: u8) -> HoldsDesk {
        HoldsDesk {
            nodes: nodes.max(1),
            asked: AtomicU64::new(0),
            answered: AtomicU64::new(0),
            last: AtomicU64::new(0),
            workers: AtomicU64::new(0),
            held: AtomicU64::new(0),
        }
    }

    /// How often something was asked.
    pub fn asked(&self) -> u64 {
        self.asked.load(Ordering::SeqCst)
    }

    /// How often it was answered.
    pub fn answered(&self) -> u64 {
        self.answered.load(Ordering::SeqCst)
    }

    /// Whether each of so many workers has asked.
    pub fn has_seen_all(&self, workers: u32) -> bool {
        let seen = self.workers.load(Ordering::SeqCst);
        (1..=workers).all(|worker| seen & bit_of(worker) != 0)
    }

    /// From now on the node is held at which the worker hands in that asked last: worker k at node 1 + k mod N of N nodes.
    pub fn hold_node_of_last_worker(&self) {
        let worker = self.last.load(Ordering::SeqCst);
        let before = worker.checked_rem(u64::from(self.nodes)).unwrap_or(0);
        self.held.store(before.saturating_add(1), Ordering::SeqCst);
    }

    /// It goes on.
    pub fn release(&self) {
        self.held.store(0, Ordering::SeqCst);
    }

    // Holds the thread that calls it while the node is held.
    fn hold(&self, node: u8) {
        for _ in 0..MOST_LOOKS {
            if self.held.load(Ordering::SeqCst) != u64::from(node) {
                return;
            }
            thread::yield_now();
        }
    }
}

impl Gate for HoldsDesk {
    fn at(&self, who: Actor, point: Point) {
        match (who, point) {
            (Actor::Worker(worker), Point::Asked) => {
                self.last.store(u64::from(worker), Ordering::SeqCst);
                self.workers.fetch_or(bit_of(worker), Ordering::SeqCst);
                self.asked.fetch_add(1, Ordering::SeqCst);
            }
            (Actor::Worker(_), Point::Answered) => {
                self.answered.fetch_add(1, Ordering::SeqCst);
            }
            (Actor::Node(node), Point::Turn) => self.hold(node),
            _ => {}
        }
    }
}

/// Holds each node at its turns until it is given one, or until it is stopped.
#[derive(Drop)]
pub struct GivesTurns<'a, R> {
    rt: &'a R,
    is_stopped: &'a AtomicBool,
    /// The nodes that were given a turn and haven't taken it, a bit for each.
    given: AtomicU64,
}

impl<'a, R: Clock> GivesTurns<'a, R> {
    /// Nobody was given a turn yet.
    pub fn new(rt: &'a R, is_stopped: &'a AtomicBool) -> GivesTurns<'a, R> {
        GivesTurns {
            rt,
            is_stopped,
            given: AtomicU64::new(0),
        }
    }

    /// Whether it is stopped.
    pub fn is_stopped(&self) -> bool {
        self.is_stopped.load(Ordering::SeqCst)
    }

    /// Gives a turn to each node from the first to the last, and waits until all turns were taken.
    pub fn give(&self, first: u8, last: u8) {
        for node in first..=last {
            self.given
                .fetch_or(bit_of(u32::from(node)), Ordering::SeqCst);
        }
        for _ in 0..MOST_LOOKS {
            if self.is_stopped() || self.given.load(Ordering::SeqCst) == 0 {
                return;
            }
            self.nap();
        }
    }

    // Waits until the node is given a turn, and takes it.
    fn take(&self, node: u8) {
        let bit = bit_of(u32::from(node));
        for _ in 0..MOST_LOOKS {
            if self.is_stopped() || self.given.fetch_and(!bit, Ordering::SeqCst) & bit != 0 {
                return;
            }
            self.nap();
        }
    }

    // Sleeps from one look to the next.
    fn nap(&self) {
        thread::sleep(self.rt, Duration::from_micros(NAP));
    }
}

impl<'a, R: Clock> Gate for GivesTurns<'a, R> {
    fn at(&self, who: Actor, point: Point) {
        if let (Actor::Node(node), Point::Turn) = (who, point) {
            self.take(node);
        }
    }
}

// The bit of a worker or a node.
fn bit_of(number: u32) -> u64 {
    1u64 << (number % 64)
}
