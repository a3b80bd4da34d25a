//! A letter that comes twice.
ghost use Rattle.agreement.specs.Agreements.{StaysChosen};
ghost use Rattle.agreement.specs.OneOrder.{HasOneOrder};

use ballot::Members;
use object::{Act, Command, Key, Object, Register, RegisterOp};
use std::test::Fail;
use world::{Event, World, WorldError};

/// A letter reaches its receiver, and reaches it again.
fn deliver_twice<O: Object>(world: &mut World<O>, letter: usize) -> Result<(), WorldError>
    ensures one_order { HasOneOrder O.rules world.new }
    ensures stays { StaysChosen world.old.cluster world.new.cluster }
{
    world.step(Event::Deliver(letter))?;
    world.step(Event::Deliver(letter))
}

#[test]
fn letters_that_come_twice_decide_once(rt: HostRuntime) -> Result<(), Fail> {
    let members = Members::new(1).ok_or("no members")?;
    let mut world: World<Register> = World::new(rt.alloc(), members)?;
    let key = Key {
        session: 1,
        number: 1,
    };
    let command = Command::new(key, Act::Do(RegisterOp::Read)).ok_or("no command")?;
    world.step(Event::Submit(1, command))?;
    world.step(Event::Propose(1))?;
    world.step(Event::Wake(1))?;
    // propose, p1a, p1b, p2a, p2b and decision, in the order in which they are sent; the p1a and the p2a that come
    // again are answered again
    for letter in [0, 1, 2, 4, 5, 7] {
        deliver_twice(&mut world, letter)?;
    }
    world.step(Event::Perform(1))?;
    assert_eq!(rt; world.order()?.len(), 1);
    assert_eq!(rt; world.answers().len(), 1);
    Ok(())
}
