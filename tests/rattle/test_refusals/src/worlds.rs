//! Worlds of three nodes that take one event after the other.
use crate::dumps::{KICK, LOST_LEADER, read};
use crate::outcome::Outcome;
use crate::subject::{Refusal, Subject, Then, walk};
use bean_queue::Queue;
use bean_words::{Op, Reply};
use chronicle_text::Chronicle;
use object::{Command, Submission, Value};
use std::alloc::{AllocError, Global};
use world::{Event, World, WorldError};

impl From<WorldError> for Refusal {
    fn from(error: WorldError) -> Refusal {
        match error {
            WorldError::OutOfMemory => Refusal::OutOfMemory,
            _ => Refusal::Other,
        }
    }
}

/// An event. A command is named by its place among the submissions, a letter by its number.
#[derive(Clone, Copy)]
enum Turn {
    Submit(u8, usize),
    Deliver(usize),
    Wake(u8),
    Propose(u8),
    Perform(u8),
    Restart(u8),
}

/// A world, and the events that it takes.
#[derive(Drop)]
struct Nodes<'a> {
    world: World<Queue>,
    submitted: &'a [Submission<Op>],
    turns: &'a [Turn],
}

impl Nodes<'_> {
    fn event(&self, turn: Turn) -> Result<Event<Op>, Refusal> {
        match turn {
            Turn::Submit(node, place) => Ok(Event::Submit(node, self.command(place)?)),
            Turn::Deliver(letter) => Ok(Event::Deliver(letter)),
            Turn::Wake(node) => Ok(Event::Wake(node)),
            Turn::Propose(node) => Ok(Event::Propose(node)),
            Turn::Perform(node) => Ok(Event::Perform(node)),
            Turn::Restart(node) => Ok(Event::Restart(node)),
        }
    }

    // A copy, which shares the bytes of its body.
    fn command(&self, place: usize) -> Result<Command<Op>, Refusal> {
        let submission = self.submitted.get(place).ok_or(Refusal::Other)?;
        submission.command.copy().map_err(|_| Refusal::Other)
    }

    fn take(&mut self, turn: Turn) -> Result<(), Refusal> {
        let event = self.event(turn)?;
        self.world.step(event)?;
        Ok(())
    }
}

impl Subject for Nodes<'_> {
    type Told = ();

    fn make(&mut self, place: usize) -> Result<(), Refusal> {
        let turn = *self.turns.get(place).ok_or(Refusal::Other)?;
        self.take(turn)
    }

    fn is_like(&mut self, other: &mut Self) -> Result<bool, AllocError> {
        let tells_alike = self.world.letters() == other.world.letters()
            && self.world.submitted() == other.world.submitted()
            && self.world.answers() == other.world.answers();
        Ok(tells_alike && self.world.order()? == other.world.order()?)
    }
}

// Whether what happened is what the dump tells.
fn is_told(world: &World<Queue>, dump: &Chronicle<Op, Reply>) -> bool {
    world.submitted() == dump.submitted()
        && world.answers() == dump.answers()
        && dump.order().iter().all(|key| world.placed(*key))
}

// How it goes where two worlds take these events, and what happened has to be what the dump tells.
fn take_all(
    alloc: Global,
    both: (Nodes<'_>, Nodes<'_>),
    dump: &Chronicle<Op, Reply>,
    then: Then,
) -> Outcome {
    let (mut tried, mut other) = both;
    let turns = tried.turns.len();
    let outcome = walk(alloc, &mut tried, &mut other, turns, then);
    outcome.if_so(then == Then::Stop || is_told(&tried.world, dump), turns)
}

fn new_nodes<'a>(
    alloc: Global,
    dump: &'a Chronicle<Op, Reply>,
    turns: &'a [Turn],
) -> Option<Nodes<'a>> {
    Some(Nodes {
        world: World::new(alloc, dump.members()).ok()?,
        submitted: dump.submitted(),
        turns,
    })
}

/// The events of a leader that gets its command accepted by two nodes and is lost, and of another one that has to bring
/// the same command to its decision.
const LOST_LEADER_TURNS: &[Turn] = &[
    Turn::Submit(1, 0),
    Turn::Propose(1),
    Turn::Wake(1),
    Turn::Deliver(3),
    Turn::Deliver(4),
    Turn::Deliver(6),
    Turn::Deliver(7),
    Turn::Deliver(0),
    Turn::Deliver(8),
    Turn::Deliver(9),
    Turn::Restart(1),
    Turn::Submit(2, 1),
    Turn::Propose(2),
    Turn::Deliver(14),
    Turn::Wake(2),
    Turn::Deliver(17),
    Turn::Deliver(18),
    Turn::Deliver(19),
    Turn::Deliver(20),
    Turn::Deliver(22),
    Turn::Deliver(23),
    Turn::Deliver(24),
    Turn::Deliver(25),
    Turn::Deliver(27),
    Turn::Perform(2),
];

/// What a lost leader got accepted is decided.
pub fn lost_leader(alloc: Global, then: Then) -> Option<Outcome> {
    let dump = read(alloc, LOST_LEADER)?;
    let both = (
        new_nodes(alloc, &dump, LOST_LEADER_TURNS)?,
        new_nodes(alloc, &dump, LOST_LEADER_TURNS)?,
    );
    Some(take_all(alloc, both, &dump, then))
}

/// The kick is performed by node 2, which may be refused memory, and then by node 1.
const KICK_TURNS: &[Turn] = &[Turn::Perform(2), Turn::Perform(1)];

/// Two nodes perform a kick of three jobs that are buried.
pub fn kick(alloc: Global, then: Then) -> Option<Outcome> {
    let dump = read(alloc, KICK)?;
    let both = (
        before_the_kick(alloc, &dump)?,
        before_the_kick(alloc, &dump)?,
    );
    Some(take_all(alloc, both, &dump, then))
}

// Nodes of which 1 and 2 performed all commands but the last, and know its decision.
fn before_the_kick(alloc: Global, dump: &Chronicle<Op, Reply>) -> Option<Nodes<'_>> {
    let mut nodes = new_nodes(alloc, dump, KICK_TURNS)?;
    nodes.take(Turn::Wake(1)).ok()?;
    let mut delivered = 0;
    for place in 0..dump.submitted().len() {
        nodes.take(Turn::Perform(1)).ok()?;
        nodes.take(Turn::Perform(2)).ok()?;
        nodes.take(Turn::Submit(1, place)).ok()?;
        nodes.take(Turn::Propose(1)).ok()?;
        delivered = deliver_all(&mut nodes, delivered)?;
    }
    Some(nodes)
}

// Delivers each letter from this one on, and answers how many there are.
fn deliver_all(nodes: &mut Nodes<'_>, delivered: usize) -> Option<usize> {
    for letter in delivered..1000 {
        if letter >= nodes.world.letters().len() {
            return Some(letter);
        }
        nodes.take(Turn::Deliver(letter)).ok()?;
    }
    None
}
