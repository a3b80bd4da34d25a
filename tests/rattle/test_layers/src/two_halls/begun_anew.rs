//! A hall that begins anew with the commands that took effect in another one.
use crate::two_halls::both::Turn;
use crate::two_halls::draws::Draws;
use ballot::Members;
use bean_queue::Queue;
use bean_words::{Op, Reply};
use forgetting_hall::ForgettingHall;
use object::{Act, Command, Object, Value};
use std::alloc::Global;
use std::test::Fail;

/// So many times commands are handed in.
const TIMES: u32 = 30;

/// So many sessions are there, each second number from 2 on.
const SESSIONS: u32 = 3;

/// So many rounds are taken at most until nothing is left to do.
const MOST_ROUNDS: u32 = 1_000;

/// The number of a session.
fn session_at(place: usize) -> u32 {
    let number = u32::try_from(place).unwrap_or(u32::MAX);
    number.saturating_add(1).saturating_mul(2)
}

/// A hall of these members that gathers, with its sessions, whose first node leads.
fn new_hall<O: Object>(alloc: Global, members: Members) -> Result<ForgettingHall<O>, Fail> {
    let mut hall = ForgettingHall::new(alloc, members)?;
    hall.gather();
    for place in 0..SESSIONS as usize {
        hall.open_as(session_at(place))?;
    }
    hall.act(1, Turn::Wake.deed())?;
    settle(&mut hall)?;
    Ok(hall)
}

/// Each node does what it has to, one after the other, until none has anything to do.
fn settle<O: Object>(hall: &mut ForgettingHall<O>) -> Result<(), Fail> {
    let nodes = hall.members().count();
    for _ in 0..MOST_ROUNDS {
        let mut is_calm = true;
        for node in 1..=nodes {
            let work = hall.work(node);
            if work.mail {
                hall.deliver(node)?;
            }
            if work.request {
                hall.act(node, Turn::Propose.deed())?;
            }
            if work.decision {
                hall.act(node, Turn::Perform.deed())?;
            }
            is_calm = is_calm && !work.mail && !work.request && !work.decision;
        }
        if is_calm {
            return Ok(());
        }
    }
    Err("too many rounds".into())
}

/// Seconds pass and a session asks, each at a node that is drawn, and one may overtake the other. A session that waits may
/// not ask.
fn ask<O: Object<Op = Op, Reply = Reply>>(
    alloc: Global,
    hall: &mut ForgettingHall<O>,
    draws: &mut Draws,
) -> Result<(), Fail> {
    let nodes = hall.members().count();
    for _ in 0..2 {
        if draws.below(2) == 0 {
            hall.tick(draws.node(nodes))?;
        }
        let session = session_at(draws.place(SESSIONS as usize));
        let act = draws.act(alloc)?;
        let _ = hall.submit(session, act, draws.node(nodes));
    }
    Ok(())
}

/// Copies of the commands, handed in anew with their keys, one after the other.
fn hand_in_all<O: Object<Op = Op, Reply = Reply>>(
    hall: &mut ForgettingHall<O>,
    commands: &[Command<Op>],
    draws: &mut Draws,
) -> Result<(), Fail> {
    let nodes = hall.members().count();
    for command in commands {
        hall.hand_in(command.copy()?, draws.node(nodes))?;
        settle(hall)?;
        hall.forget();
    }
    Ok(())
}

/// Whether both have the same reply to each session's last command where it took effect.
fn reply_alike<O: Object<Op = Op, Reply = Reply>>(
    one: &ForgettingHall<O>,
    other: &ForgettingHall<O>,
) -> bool {
    for place in 0..SESSIONS as usize {
        let session = session_at(place);
        let (Some(first), Some(second)) = (one.client(session), other.client(session)) else {
            return false;
        };
        if first.last == second.last && first.reply != second.reply {
            return false;
        }
    }
    true
}

/// How many commands were handed in and took effect for a seed; none where the second hall doesn't come to the same.
fn come_to(alloc: Global, seed: u64) -> Result<Option<(u64, u64)>, Fail> {
    let mut draws = Draws::new(seed);
    let members = draws.members()?;
    let mut hall: ForgettingHall<Queue> = new_hall(alloc, members)?;
    for _ in 0..TIMES {
        ask(alloc, &mut hall, &mut draws)?;
        settle(&mut hall)?;
        hall.forget();
    }
    let commands = hall.take_placed();
    let mut anew: ForgettingHall<Queue> = new_hall(alloc, members)?;
    hand_in_all(&mut anew, commands.as_slice(), &mut draws)?;
    if anew.take_placed() != commands || !reply_alike(&hall, &anew) {
        return Ok(None);
    }
    Ok(Some((hall.submitted_count(), hall.placed_count())))
}

#[test]
fn comes_to_the_same(rt: HostRuntime) -> Result<(), Fail> {
    let (mut submitted, mut placed) = (0u64, 0u64);
    for seed in 0..20 {
        let came = come_to(rt.alloc(), seed)?;
        assert!(rt; came.is_some(), "seed {seed}");
        let (handed_in, took_effect) = came.unwrap_or((0, 0));
        submitted = submitted.saturating_add(handed_in);
        placed = placed.saturating_add(took_effect);
    }
    assert!(rt; placed > 300 && submitted > placed, "{submitted} {placed}");
    Ok(())
}
