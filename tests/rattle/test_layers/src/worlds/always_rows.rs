//! What a body can't do that always gives up, though each contract would allow it.
use ballot::Members;
use bean_queue::Queue;
use bean_words::{Body, Op};
use object::{Act, Command, Key};
use std::test::Fail;
use world::{Event, World};

// An event that always says that memory was refused brings no answer.
#[test]
fn always_out_of_memory(rt: HostRuntime) -> Result<(), Fail> {
    let alloc = rt.alloc();
    let mut world: World<Queue> = World::new(alloc, Members::new(1).ok_or("no members")?)?;
    let put = Op::Put {
        pri: 0,
        delay: 0,
        ttr: 9,
        body: Body::new(alloc, b"x")?,
    };
    let key = Key {
        session: 1,
        number: 1,
    };
    let command = Command::new(key, Act::Do(put)).ok_or("no command")?;
    world.step(Event::Submit(1, command))?;
    world.step(Event::Propose(1))?;
    world.step(Event::Wake(1))?;
    for letter in 0..6 {
        world.step(Event::Deliver(letter))?;
    }
    world.step(Event::Perform(1))?;
    assert_eq!(rt; world.answers().len(), 1);
    Ok(())
}
