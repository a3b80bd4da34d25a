//! Ways out of worlds: the events that bring a submitted command into the order, wherever the nodes stand.
use crate::worlds::restart_rows::{FIRST, RUN, begun, put};
use crate::worlds::schedule_rows::Run;
use ballot::Members;
use bean_queue::Queue;
use object::{Act, Command, Key, Object, Register, RegisterOp};
use std::alloc::Global;
use std::test::Fail;
use world::{Event, World};

/// The second command, whose leader has the first one decided in its place.
const SECOND: Key = Key {
    session: 2,
    number: 1,
};

/// What a world tells of a key.
#[derive(Clone, Copy, Debug, PartialEq, Eq)]
enum Told {
    /// That there is no way.
    NoWay,
    /// No events, and it stands in the order.
    NoEvents,
    /// Events without a restart that bring it into the order.
    Events,
    /// Something that is wrong.
    Wrong,
}

/// Whether the key stands in the order.
fn is_in_order<O: Object>(world: &World<O>, key: Key) -> Result<bool, Fail> {
    let order = world.order()?;
    Ok(order.iter().any(|command| command.key() == key))
}

/// Whether a node restarts.
fn restarts<Op>(events: &[Event<Op>]) -> bool {
    events
        .iter()
        .any(|event| matches!(event, Event::Restart(_)))
}

/// What the world tells of the key. It takes the events that it tells.
fn rescued<O: Object>(world: &mut World<O>, key: Key) -> Result<Told, Fail> {
    let was_in_order = is_in_order(world, key)?;
    let Some(events) = world.rescue(key)? else {
        return Ok(Told::NoWay);
    };
    if events.is_empty() != was_in_order || restarts(events.as_slice()) {
        return Ok(Told::Wrong);
    }
    world.run(events.as_slice())?;
    Ok(match (was_in_order, is_in_order(world, key)?) {
        (true, true) => Told::NoEvents,
        (false, true) => Told::Events,
        _ => Told::Wrong,
    })
}

/// Whether the order has the only commands of these sessions.
fn is_order_of(alloc: Global, world: &World<Queue>, sessions: &[u32]) -> Result<bool, Fail> {
    let mut commands = Vec::new(alloc);
    for session in sessions {
        commands.push(put(alloc, *session)?)?;
    }
    Ok(world.order()? == commands)
}

// The first command is decided in the slot for which the second one was proposed, which stands among the requests of its
// node.
#[test]
fn what_lost_its_slot_comes_next(rt: HostRuntime) -> Result<(), Fail> {
    let alloc = rt.alloc();
    let members = Members::new(3).ok_or("no members")?;
    let mut world = begun(alloc, members, RUN.len())?;
    let unknown = Key {
        session: 9,
        number: 9,
    };
    assert_eq!(rt; rescued(&mut world, unknown)?, Told::NoWay);
    assert_eq!(rt; rescued(&mut world, FIRST)?, Told::NoEvents);
    assert_eq!(rt; rescued(&mut world, SECOND)?, Told::Events);
    assert!(rt; is_order_of(alloc, &world, &[1, 2])?);
    Ok(())
}

/// After so many steps of the run the first leader is lost.
const LOST_AFTER: usize = 11;

/// After so many it has asked for votes, and none is cast.
const ASKED_AFTER: usize = 8;

// Where its node weighs more than both others, what its acceptor accepted is chosen.
#[test]
fn one_vote_of_weight_is_enough(rt: HostRuntime) -> Result<(), Fail> {
    let alloc = rt.alloc();
    let members = Members::weighted(&[3, 1, 1]).ok_or("no members")?;
    let mut voted = begun(alloc, members, LOST_AFTER)?;
    assert_eq!(rt; rescued(&mut voted, FIRST)?, Told::NoEvents);
    assert!(rt; is_order_of(alloc, &voted, &[1])?);
    let mut unvoted = begun(alloc, members, ASKED_AFTER)?;
    unvoted.step(Event::Restart(1))?;
    assert_eq!(rt; rescued(&mut unvoted, FIRST)?, Told::Events);
    assert!(rt; is_order_of(alloc, &unvoted, &[1])?);
    Ok(())
}

/// Weights of three nodes, and how many steps of the run there are with them: the others aren't adopted without the first
/// node where it outweighs them.
static STEPS: [(&[u32], usize); 2] = [(&[1, 1, 1], 25), (&[3, 1, 1], 19)];

/// Of the commands that were submitted in so many steps, the key of one that isn't brought into the order. After the steps
/// the node of this number restarts, if it is a member.
fn left_out(
    alloc: Global,
    members: Members,
    len: usize,
    restarted: u8,
) -> Result<Option<Key>, Fail> {
    let submitted = begun(alloc, members, len)?;
    for submission in submitted.submitted() {
        let key = submission.command.key();
        let mut world = begun(alloc, members, len)?;
        if members.has(restarted) {
            world.step(Event::Restart(restarted))?;
        }
        if !matches!(rescued(&mut world, key)?, Told::NoEvents | Told::Events) {
            return Ok(Some(key));
        }
    }
    Ok(None)
}

#[test]
fn each_beginning_has_a_way_for_what_was_submitted(rt: HostRuntime) -> Result<(), Fail> {
    for (weights, steps) in STEPS.iter() {
        let members = Members::weighted(*weights).ok_or("no members")?;
        for len in 0..=*steps {
            for restarted in 0..=3 {
                let left = left_out(rt.alloc(), members, len, restarted)?;
                assert_eq!(rt; left, None, "{weights:?}, {len} steps, node {restarted}");
            }
        }
    }
    Ok(())
}

fn command(key: Key, op: RegisterOp) -> Result<Command<RegisterOp>, Fail> {
    Ok(Command::new(key, Act::Do(op)).ok_or("no command")?)
}

/// How the only node gets a first command, decides it and performs it.
fn decided(alloc: Global, command: Command<RegisterOp>) -> Result<Vec<Event<RegisterOp>>, Fail> {
    let mut events = Vec::new(alloc);
    events.push(Event::Submit(1, command))?;
    events.push(Event::Propose(1))?;
    events.push(Event::Wake(1))?;
    for letter in 0..6 {
        events.push(Event::Deliver(letter))?;
    }
    events.push(Event::Perform(1))?;
    Ok(events)
}

/// And then a second one. An old vote comes again, and the node restarts, learns both and performs them again.
fn both_decided(alloc: Global) -> Result<Vec<Event<RegisterOp>>, Fail> {
    let mut events = decided(alloc, command(FIRST, RegisterOp::Write(7))?)?;
    events.push(Event::Submit(1, command(SECOND, RegisterOp::Read)?))?;
    events.push(Event::Propose(1))?;
    for letter in 6..10 {
        events.push(Event::Deliver(letter))?;
    }
    events.push(Event::Perform(1))?;
    events.push(Event::Deliver(3))?;
    events.push(Event::Deliver(10))?;
    events.push(Event::Restart(1))?;
    events.push(Event::Deliver(5))?;
    events.push(Event::Deliver(9))?;
    events.push(Event::Perform(1))?;
    events.push(Event::Perform(1))?;
    Ok(events)
}

/// A command of these, and after how many of the events it is submitted and chosen.
static PLACES: [(Key, usize, usize); 2] = [(FIRST, 1, 7), (SECOND, 11, 14)];

/// What is told after so many events of a command of these places.
fn expected(len: usize, submitted: usize, chosen: usize) -> Told {
    if len < submitted {
        Told::NoWay
    } else if len < chosen {
        Told::Events
    } else {
        Told::NoEvents
    }
}

/// What the only node tells of the key where it restarts after these events.
fn told_after_restart(alloc: Global, events: &[Event<RegisterOp>], key: Key) -> Result<Told, Fail> {
    let mut world: World<Register> = World::new(alloc, Members::new(1).ok_or("no members")?)?;
    world.run(events)?;
    world.step(Event::Restart(1))?;
    rescued(&mut world, key)
}

#[test]
fn a_restart_of_the_only_node_loses_no_command(rt: HostRuntime) -> Result<(), Fail> {
    let events = both_decided(rt.alloc())?;
    for len in 0..=events.len() {
        let beginning = events.get(..len).ok_or("no such beginning")?;
        for (key, submitted, chosen) in PLACES.iter() {
            let told = told_after_restart(rt.alloc(), beginning, *key)?;
            assert_eq!(rt;
                told,
                expected(len, *submitted, *chosen),
                "{len} events, {key:?}"
            );
        }
    }
    Ok(())
}

#[test]
fn a_lower_number_comes_too_late(rt: HostRuntime) -> Result<(), Fail> {
    let alloc = rt.alloc();
    let later = Key {
        session: 1,
        number: 2,
    };
    let mut world: World<Register> = World::new(alloc, Members::new(1).ok_or("no members")?)?;
    world.run(decided(alloc, command(later, RegisterOp::Read)?)?.as_slice())?;
    world.step(Event::Submit(1, command(FIRST, RegisterOp::Read)?))?;
    assert_eq!(rt; rescued(&mut world, FIRST)?, Told::NoWay);
    assert_eq!(rt; rescued(&mut world, later)?, Told::NoEvents);
    Ok(())
}

/// How many commands are submitted under a schedule.
const ROUNDS: u32 = 20;

/// Whether all commands that were submitted under a schedule come into the order, one after the other.
fn brings_all(alloc: Global, seed: u64) -> Result<bool, Fail> {
    let mut run = Run::new(alloc, seed)?;
    for session in 1..=ROUNDS {
        run.round(session)?;
    }
    for session in 1..=ROUNDS {
        let key = Key { session, number: 1 };
        if !matches!(rescued(&mut run.world, key)?, Told::NoEvents | Told::Events) {
            return Ok(false);
        }
    }
    Ok(run.world.order()?.len() == ROUNDS as usize)
}

#[test]
fn all_that_was_submitted_comes_into_the_order(rt: HostRuntime) -> Result<(), Fail> {
    for seed in 0..10 {
        assert!(rt; brings_all(rt.alloc(), seed)?, "seed {seed}");
    }
    Ok(())
}
