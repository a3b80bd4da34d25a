//! A hall that forgets, whose nodes act as they are drawn, and whose letters are lost and come twice.
use crate::soak::draws::Draws;
use ballot::Members;
use bean_queue::Queue;
use bean_words::{Op, Reply};
use forgetting_hall::ForgettingHall;
use node::Deed;
use object::Act;
use std::alloc::Global;
use std::test::Fail;
use turns::Watch;

/// So many calls are made at most until no node has anything to do.
const MOST_CALLS: u32 = 100_000;

/// One letter of so many is lost, unless there is one node: what that is told as decided nobody tells it again.
const TO_LOSS: u32 = 1_024;

/// One of so many comes again, where letters are lost.
const TO_REPEAT: u32 = 256;

/// The hall, and what happened to its letters.
#[derive(Drop)]
pub struct Cluster {
    hall: ForgettingHall<Queue>,
    watches: Vec<Watch>,
    draws: Draws,
    /// The greatest slot that a node performed.
    reach: u64,
    lost: u64,
    repeated: u64,
}

impl Cluster {
    /// So many nodes, before anything happened.
    pub fn new(alloc: Global, nodes: u8, seed: u64) -> Result<Cluster, Fail> {
        let members = Members::new(nodes).ok_or("no members")?;
        let mut watches = Vec::new(alloc);
        for node in 1..=members.count() {
            watches.push(Watch::new(node, true))?;
        }
        Ok(Cluster {
            hall: ForgettingHall::new(alloc, members)?,
            watches,
            draws: Draws::new(seed),
            reach: 0,
            lost: 0,
            repeated: 0,
        })
    }

    pub fn open_session(&mut self) -> Result<u32, Fail> {
        Ok(self.hall.open_session()?)
    }

    /// A session's next command, at a node that is drawn.
    pub fn submit(&mut self, session: u32, op: Op) -> Result<(), Fail> {
        let node = self.draw_node();
        Ok(self.hall.submit(session, Act::Do(op), node)?)
    }

    /// A session's last command again, at a node that is drawn.
    pub fn resubmit(&mut self, session: u32) -> Result<(), Fail> {
        let node = self.draw_node();
        Ok(self.hall.resubmit(session, node)?)
    }

    /// A session ends, and nothing of it is kept.
    pub fn close(&mut self, session: u32) -> Result<(), Fail> {
        let node = self.draw_node();
        self.hall.submit(session, Act::Close, node)?;
        if session != 0 {
            self.hall.let_go(session);
        }
        Ok(())
    }

    /// The reply to a session's last command.
    pub fn reply(&self, session: u32) -> Option<&Reply> {
        self.hall.reply(session)
    }

    /// Each node says again what it waits for, and the clock shows the next second.
    pub fn pass_second(&mut self) -> Result<(), Fail> {
        let second = self.hall.last_second().saturating_add(1);
        for watch in self.watches.iter_mut() {
            watch.take_turn(&mut self.hall, second)?;
        }
        let node = self.draw_node();
        Ok(self.hall.tick(node)?)
    }

    /// One node after the other, as they are drawn, does something, until none has anything to do.
    pub fn settle(&mut self) -> Result<(), Fail> {
        for _ in 0..MOST_CALLS {
            if self.is_calm() {
                // what was answered is looked for at each session
                let _ = self.hall.take_answered();
                return Ok(());
            }
            let node = self.draw_node();
            self.take_turn(node)?;
        }
        Err("too many calls".into())
    }

    /// Forgets what it can. Then it keeps so many of the slots that were performed.
    pub fn forget(&mut self) -> u64 {
        self.hall.forget();
        self.reach
            .saturating_add(1)
            .saturating_sub(self.hall.base())
    }

    /// Of how many sessions up to this one the hall keeps something.
    pub fn client_count(&self, last: u32) -> usize {
        let mut count = 0usize;
        for session in 1..=last {
            if self.hall.client(session).is_some() {
                count = count.saturating_add(1);
            }
        }
        count
    }

    /// How many commands were handed in, seconds and all.
    pub fn submitted(&self) -> u64 {
        self.hall.submitted_count()
    }

    /// How many letters were lost.
    pub fn lost(&self) -> u64 {
        self.lost
    }

    /// How many letters came twice.
    pub fn repeated(&self) -> u64 {
        self.repeated
    }

    fn draw_node(&mut self) -> u8 {
        self.draws.node(self.hall.members().count())
    }

    fn is_calm(&self) -> bool {
        for node in 1..=self.hall.members().count() {
            let work = self.hall.work(node);
            if work.mail || work.request || work.decision {
                return false;
            }
        }
        true
    }

    // A node proposes a request, receives a letter, and performs a decision, where it has them.
    fn take_turn(&mut self, node: u8) -> Result<(), Fail> {
        let work = self.hall.work(node);
        if work.request {
            self.hall.act(node, Deed::Propose)?;
        }
        if work.mail {
            self.receive(node)?;
        }
        if work.decision {
            let outcome = self.hall.act(node, Deed::Perform)?;
            self.reach = outcome.reach_after(self.reach);
        }
        Ok(())
    }

    // The letter in front of a node's mail comes, perhaps twice, or is lost.
    fn receive(&mut self, node: u8) -> Result<(), Fail> {
        if self.hall.members().count() > 1 {
            if self.draws.is_one_of(TO_LOSS) {
                self.hall.lose(node)?;
                self.lost = self.lost.saturating_add(1);
                return Ok(());
            }
            if self.draws.is_one_of(TO_REPEAT) {
                self.hall.repeat(node)?;
                self.repeated = self.repeated.saturating_add(1);
            }
        }
        self.hall.deliver(node)?;
        Ok(())
    }
}
