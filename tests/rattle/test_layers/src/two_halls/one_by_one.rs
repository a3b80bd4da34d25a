//! Commands one by one: each is handed in to both halls, which then go on by draws of their own until it has taken effect.
use crate::two_halls::both::{Both, Turn};
use crate::two_halls::draws::Draws;
use bean_queue::Queue;
use bean_words::{Op, Reply};
use forgetting_hall::ForgettingHall;
use hall::{Hall, HallError};
use object::Object;
use std::alloc::Global;
use std::test::Fail;

/// So many commands are drawn from a seed.
const COMMANDS: u32 = 40;

/// So many calls are made at most for one command.
const MOST_CALLS: u32 = 20_000;

/// What may happen at a node.
enum Call {
    Acts(Turn),
    Deliver,
    Lose,
    Repeat,
    Forget,
}

/// A hall, whether it forgets or not.
trait Nodes {
    /// The call, at a node.
    fn make(&mut self, call: Call, node: u8) -> Result<(), HallError>;

    /// Whether a command was submitted that hasn't taken effect.
    fn has_unplaced(&self) -> bool;
}

impl<O: Object> Nodes for Hall<O> {
    fn make(&mut self, call: Call, node: u8) -> Result<(), HallError> {
        match call {
            Call::Acts(turn) => {
                self.act(node, turn.deed())?;
            }
            Call::Deliver => {
                self.deliver(node)?;
            }
            Call::Lose => {
                self.lose(node)?;
            }
            Call::Repeat => {
                self.repeat(node)?;
            }
            Call::Forget => {}
        }
        Ok(())
    }

    fn has_unplaced(&self) -> bool {
        Hall::has_unplaced(self)
    }
}

impl<O: Object> Nodes for ForgettingHall<O> {
    fn make(&mut self, call: Call, node: u8) -> Result<(), HallError> {
        match call {
            Call::Acts(turn) => {
                self.act(node, turn.deed())?;
            }
            Call::Deliver => {
                self.deliver(node)?;
            }
            Call::Lose => {
                self.lose(node)?;
            }
            Call::Repeat => {
                self.repeat(node)?;
            }
            Call::Forget => self.forget(),
        }
        Ok(())
    }

    fn has_unplaced(&self) -> bool {
        self.placed_count() < self.submitted_count()
    }
}

/// A call. The only node loses no letter: what it is told as decided nobody tells it again.
fn draw_call(draws: &mut Draws, nodes: u8) -> Call {
    match draws.below(1024) {
        0 => Call::Acts(Turn::Wake),
        1..4 => Call::Acts(Turn::Nudge),
        4..12 if nodes > 1 => Call::Lose,
        12..20 => Call::Repeat,
        20..40 => Call::Forget,
        40..120 => Call::Acts(Turn::Propose),
        120..320 => Call::Acts(Turn::Perform),
        _ => Call::Deliver,
    }
}

/// Draws calls until each command has taken effect; false where there would be too many.
fn settle<N: Nodes>(hall: &mut N, nodes: u8, draws: &mut Draws) -> Result<bool, Fail> {
    for _ in 0..MOST_CALLS {
        if !hall.has_unplaced() {
            return Ok(true);
        }
        let node = draws.node(nodes);
        hall.make(draw_call(draws, nodes), node)?;
    }
    Ok(false)
}

/// Three sessions in both halls.
fn three_sessions<O: Object<Op = Op, Reply = Reply>>(
    alloc: Global,
    draws: &mut Draws,
) -> Result<Both<O>, Fail> {
    let mut both = Both::new(alloc, draws.members()?)?;
    for _ in 0..3 {
        both.open_session()?;
    }
    Ok(both)
}

/// A second passes, or a session hands in its next command.
fn ask<O: Object<Op = Op, Reply = Reply>>(
    alloc: Global,
    both: &mut Both<O>,
    nodes: u8,
    draws: &mut Draws,
) -> Result<bool, Fail> {
    let node = draws.node(nodes);
    if draws.below(5) == 0 {
        return Ok(both.tick(node));
    }
    let place = draws.place(both.session_count());
    let act = draws.act(alloc)?;
    both.submit(place, act, node)
}

/// The base and the count of answers after the commands of a seed; none where both halls don't answer alike.
fn come_to(alloc: Global, seed: u64) -> Result<Option<(u64, u64)>, Fail> {
    let mut draws = Draws::new(seed);
    let mut both: Both<Queue> = three_sessions(alloc, &mut draws)?;
    let nodes = both.whole.members().count();
    for _ in 0..COMMANDS {
        let alike = ask(alloc, &mut both, nodes, &mut draws)?
            && settle(&mut both.whole, nodes, &mut draws)?
            && settle(&mut both.lean, nodes, &mut draws)?
            && both.have_same_replies();
        if !alike {
            return Ok(None);
        }
    }
    Ok(Some((both.lean.base(), both.lean.answer_count())))
}

#[test]
fn each_is_answered_alike(rt: HostRuntime) -> Result<(), Fail> {
    let (mut bases, mut answers) = (0u64, 0u64);
    for seed in 0..134 {
        let came = come_to(rt.alloc(), seed)?;
        assert!(rt; came.is_some(), "seed {seed}");
        let (base, answered) = came.unwrap_or((0, 0));
        bases = bases.saturating_add(base);
        answers = answers.saturating_add(answered);
    }
    assert!(rt; bases > 1_000 && answers > 1_000, "{bases} {answers}");
    Ok(())
}
