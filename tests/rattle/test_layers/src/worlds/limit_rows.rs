//! What goes on far past every small number: where memory is ample, nothing is refused.
use ballot::Members;
use object::{Act, Command, Key, Register, RegisterOp};
use std::test::Fail;
use world::{Event, World};

/// So many commands are brought into the order of one world by a way out each.
const WAYS: u32 = 120;

fn read_of(session: u32) -> Result<Command<RegisterOp>, Fail> {
    let key = Key { session, number: 1 };
    Ok(Command::new(key, Act::Do(RegisterOp::Read)).ok_or("no command")?)
}

#[test]
fn many_ways_out_of_one_world(rt: HostRuntime) -> Result<(), Fail> {
    let members = Members::new(1).ok_or("no members")?;
    let mut world: World<Register> = World::new(rt.alloc(), members)?;
    for session in 1..=WAYS {
        world.step(Event::Submit(1, read_of(session)?))?;
        let key = Key { session, number: 1 };
        let events = world.rescue(key)?.ok_or("no way")?;
        world.run(events.as_slice())?;
    }
    assert_eq!(rt; world.order()?.len(), WAYS as usize);
    Ok(())
}
