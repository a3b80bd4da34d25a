//! What the nodes choose under schedules that lose, repeat and reorder letters and restart nodes.
use ballot::Members;
use object::{Act, Command, Key, Register, RegisterOp};
use std::alloc::Global;
use std::test::Fail;
use world::{Event, Schedule, World};

/// How many times a command is submitted in one schedule.
const ROUNDS: u32 = 20;

/// How many events there are from one submission to the next.
const EVENTS: u32 = 99;

/// A schedule with its world, and the order so far.
#[derive(Drop)]
pub(crate) struct Run {
    members: Members,
    schedule: Schedule,
    pub(crate) world: World<Register>,
    order: Vec<Command<RegisterOp>>,
}

impl Run {
    pub(crate) fn new(alloc: Global, seed: u64) -> Result<Run, Fail> {
        let count = if seed % 2 == 0 { 3 } else { 5 };
        let members = Members::new(count).ok_or("no members")?;
        Ok(Run {
            members,
            schedule: Schedule::new(seed),
            world: World::new(alloc, members)?,
            order: Vec::new(alloc),
        })
    }

    /// A session submits its only command at one of the nodes.
    fn submit(&mut self, session: u32) -> Result<(), Fail> {
        let key = Key { session, number: 1 };
        let act = Act::Do(RegisterOp::Write(u64::from(session)));
        let command = Command::new(key, act).ok_or("no command")?;
        let node = self.schedule.pick(u32::from(self.members.count())) as u8 + 1;
        Ok(self.world.step(Event::Submit(node, command))?)
    }

    /// Submits a command, and takes the events that come next. Whether the order goes on from the one before them.
    pub(crate) fn round(&mut self, session: u32) -> Result<bool, Fail> {
        self.submit(session)?;
        for _ in 0..EVENTS {
            let letters = self.world.letters().len();
            let event = self.schedule.next(self.members, letters);
            self.world.step(event)?;
        }
        let order = self.world.order()?;
        let goes_on = order.starts_with(self.order.as_slice());
        self.order = order;
        Ok(goes_on)
    }
}

#[test]
fn the_order_only_goes_on(rt: HostRuntime) -> Result<(), Fail> {
    for seed in 0..100 {
        let mut run = Run::new(rt.alloc(), seed)?;
        for session in 1..=ROUNDS {
            assert!(rt; run.round(session)?, "seed {seed}, round {session}");
        }
        assert!(rt; !run.order.is_empty(), "seed {seed}");
    }
    Ok(())
}
