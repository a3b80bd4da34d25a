//! What befalls the nodes of a cluster, by their numbers and turns.
use node_threads::{Faults, Mishap};
use std::alloc::{AllocError, Global};
use std::sync::atomic::{AtomicBool, AtomicU64, Ordering};

/// Nothing befalls any node.
#[derive(Drop)]
pub struct Nothing;

impl Faults for Nothing {
    fn choose(&self, _node: u8, _turn: u64) -> Mishap {
        Mishap::None
    }
}

/// Node n restarts at its turn 20 * n. At each other turn that 3 divides, the letter in front of its mail comes again.
#[derive(Drop)]
pub struct RestartsOnce;

impl Faults for RestartsOnce {
    fn choose(&self, node: u8, turn: u64) -> Mishap {
        if turn == 20 * u64::from(node) {
            Mishap::Restart
        } else if turn % 3 == 0 {
            Mishap::Repeat
        } else {
            Mishap::None
        }
    }
}

/// Each node restarts at its first two turns.
#[derive(Drop)]
pub struct RestartsAtFirst;

impl Faults for RestartsAtFirst {
    fn choose(&self, _node: u8, turn: u64) -> Mishap {
        if turn <= 2 {
            Mishap::Restart
        } else {
            Mishap::None
        }
    }
}

/// Each node but the first restarts at each of its turns.
#[derive(Drop)]
pub struct OthersRestart;

impl Faults for OthersRestart {
    fn choose(&self, node: u8, _turn: u64) -> Mishap {
        if node == 1 {
            Mishap::None
        } else {
            Mishap::Restart
        }
    }
}

/// Before each turn of node 2 the letter in front of its mail is lost, until the clock goes.
#[derive(Drop)]
pub struct LosesUntil<'a> {
    pub goes: &'a AtomicBool,
}

impl<'a> Faults for LosesUntil<'a> {
    fn choose(&self, node: u8, _turn: u64) -> Mishap {
        if node == 2 && !self.goes.load(Ordering::SeqCst) {
            Mishap::Lose
        } else {
            Mishap::None
        }
    }
}

/// A mishap at a third of all turns, drawn from a seed: of 18 draws three are losses, two repeats and one is a restart.
#[derive(Drop)]
pub struct Drawn {
    pub seed: u64,
}

impl Faults for Drawn {
    fn choose(&self, node: u8, turn: u64) -> Mishap {
        match draw(self.seed, node, turn) % 18 {
            0..=2 => Mishap::Lose,
            3..=4 => Mishap::Repeat,
            5 => Mishap::Restart,
            _ => Mishap::None,
        }
    }
}

// A word of node and turn, all of whose bits depend on all of theirs: the output function of SplitMix64.
fn draw(seed: u64, node: u8, turn: u64) -> u64 {
    let mut word = seed
        .wrapping_add(u64::from(node).wrapping_mul(0xd1b5_4a32_d192_ed03))
        .wrapping_add(turn.wrapping_mul(0x9e37_79b9_7f4a_7c15));
    word = (word ^ (word >> 30)).wrapping_mul(0xbf58_476d_1ce4_e5b9);
    word = (word ^ (word >> 27)).wrapping_mul(0x94d0_49bb_1331_11eb);
    word ^ (word >> 31)
}

/// Counts what another chooses, and sees whether it is asked for the turns 1, 2, 3, .. of each node.
#[derive(Drop)]
pub struct Counted<F> {
    by: F,
    /// The turn that was asked for last, of each node.
    turns: Vec<AtomicU64>,
    lost: AtomicU64,
    repeated: AtomicU64,
    restarted: AtomicU64,
    asked: AtomicU64,
    was_out_of_turn: AtomicBool,
}

impl<F: Drop> Counted<F> {
    /// It wasn't asked yet.
    pub fn new(alloc: Global, by: F) -> Result<Counted<F>, AllocError> {
        let mut turns = Vec::new(alloc);
        for _ in 0..8u8 {
            turns.push(AtomicU64::new(0))?;
        }
        Ok(Counted {
            by,
            turns,
            lost: AtomicU64::new(0),
            repeated: AtomicU64::new(0),
            restarted: AtomicU64::new(0),
            asked: AtomicU64::new(0),
            was_out_of_turn: AtomicBool::new(false),
        })
    }

    /// How many restarts it chose.
    pub fn restarts(&self) -> u64 {
        self.restarted.load(Ordering::SeqCst)
    }

    /// Whether it chose each mishap at least once.
    pub fn chose_each(&self) -> bool {
        self.restarts() > 0
            && self.lost.load(Ordering::SeqCst) > 0
            && self.repeated.load(Ordering::SeqCst) > 0
    }

    /// Whether it was asked for so many turns, of each node one after the other.
    pub fn was_asked_in_turn(&self, turns: u64) -> bool {
        self.asked.load(Ordering::SeqCst) == turns && !self.was_out_of_turn.load(Ordering::SeqCst)
    }

    fn note_turn(&self, node: u8, turn: u64) {
        let is_next = match self.turns.get(usize::from(node)) {
            Some(last) => last.swap(turn, Ordering::SeqCst).checked_add(1) == Some(turn),
            None => false,
        };
        if !is_next {
            self.was_out_of_turn.store(true, Ordering::SeqCst);
        }
        self.asked.fetch_add(1, Ordering::SeqCst);
    }
}

impl<F: Faults + Drop> Faults for Counted<F> {
    fn choose(&self, node: u8, turn: u64) -> Mishap {
        self.note_turn(node, turn);
        let mishap = self.by.choose(node, turn);
        match mishap {
            Mishap::None => 0,
            Mishap::Lose => self.lost.fetch_add(1, Ordering::SeqCst),
            Mishap::Repeat => self.repeated.fetch_add(1, Ordering::SeqCst),
            Mishap::Restart => self.restarted.fetch_add(1, Ordering::SeqCst),
        };
        mishap
    }
}
