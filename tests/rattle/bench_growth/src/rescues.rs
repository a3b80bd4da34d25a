//! Worlds of many decided slots whose leader restarts, and what the way out of them costs, for `bench/rescue_growth`.
//!
//! Its words are how many members there are and how many slots, and maybe that it tells the processor time. It writes
//! both, how many events bring a last command into the order, and how many microseconds it took to find them, or 0. Where it doesn't
//! tell the time, it looks whether the order has all commands then.

use ballot::Members;
use object::{Act, Command, Key, Register, RegisterOp};
use std::alloc::Global;
use std::str::SplitWhitespace;
use std::time::CpuClock;
use world::{Event, World};

/// Finds the way out of one world, and goes it.
pub fn measure(rt: &HostRuntime, mut words: SplitWhitespace<'_>) -> Option<()> {
    let count: u8 = words.next()?.parse().ok()?;
    let slots: u32 = words.next()?.parse().ok()?;
    let is_timed = words.next().is_some();
    let last = u64::from(slots) + 1;
    let mut world = decided(rt.alloc(), Members::new(count)?, last)?;
    world.step(Event::Restart(1)).ok()?;
    world.step(Event::Submit(count, write(last)?)).ok()?;
    let began = spent(rt, is_timed)?;
    let events = world.rescue(key(last)).ok()??;
    let took = spent(rt, is_timed)?.saturating_sub(began);
    println!(rt; "{count} {slots} {} {took}", events.len()).ok()?;
    world.run(events.as_slice()).ok()?;
    if world.placed(key(last)) && (is_timed || has_all(&world, last)?) {
        Some(())
    } else {
        None
    }
}

// Whether the order has the commands of the numbers up to the last, and ends with it.
fn has_all(world: &World<Register>, last: u64) -> Option<bool> {
    let order = world.order().ok()?;
    let numbers = order.iter().map(|command| command.key().number);
    Some(numbers.eq(1..=last))
}

// The processor time until now, in microseconds, or 0.
fn spent(rt: &HostRuntime, is_timed: bool) -> Option<u128> {
    if is_timed {
        Some(rt.process_cpu_time().ok()?.as_micros())
    } else {
        Some(0)
    }
}

// A world in which node 1 leads, and the commands of the numbers below the last were decided, each in its slot.
fn decided(alloc: Global, members: Members, last: u64) -> Option<World<Register>> {
    let mut world = World::new(alloc, members).ok()?;
    world.step(Event::Wake(1)).ok()?;
    deliver_from(&mut world, 0)?;
    for number in 1..last {
        decide(&mut world, number)?;
    }
    Some(world)
}

// The command of this number is asked for at node 1, which proposes it, and performs it when all letters are delivered.
fn decide(world: &mut World<Register>, number: u64) -> Option<()> {
    world.step(Event::Submit(1, write(number)?)).ok()?;
    let sent = world.letters().len();
    world.step(Event::Propose(1)).ok()?;
    deliver_from(world, sent)?;
    world.step(Event::Perform(1)).ok()
}

// The letters from this one on are delivered, and those that are sent meanwhile.
fn deliver_from(world: &mut World<Register>, first: usize) -> Option<()> {
    for letter in first..usize::MAX {
        if letter >= world.letters().len() {
            break;
        }
        world.step(Event::Deliver(letter)).ok()?;
    }
    Some(())
}

// One session asks for all.
fn key(number: u64) -> Key {
    Key { session: 1, number }
}

fn write(number: u64) -> Option<Command<RegisterOp>> {
    Command::new(key(number), Act::Do(RegisterOp::Write(number)))
}
