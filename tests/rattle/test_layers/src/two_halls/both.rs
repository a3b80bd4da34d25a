//! A hall that keeps everything and one that forgets, for which the same calls are made.
ghost use Rattle.hall.specs.Recorded.{IsOwnDeed};
ghost use Rattle.forgetting_hall.specs.Rests.{IsGoingOn};

use ballot::Members;
use bean_words::{Op, Reply};
use forgetting_hall::ForgettingHall;
use hall::{Hall, Ticket};
use lean_network::Receipt;
use node::Deed;
use object::{Act, Object, Value};
use std::alloc::Global;
use std::test::Fail;

/// What a node does by itself.
#[derive(Clone, Copy)]
pub enum Turn {
    Wake,
    Nudge,
    Propose,
    Perform,
}

impl Turn {
    pub fn deed<Op>(self) -> Deed<Op>
        ensures whole { IsOwnDeed result }
        ensures lean { IsGoingOn result }
    {
        match self {
            Turn::Wake => Deed::Wake,
            Turn::Nudge => Deed::Nudge,
            Turn::Propose => Deed::Propose,
            Turn::Perform => Deed::Perform,
        }
    }
}

/// Both halls, and the sessions that were opened in them. Each call tells whether both answered alike.
#[derive(Drop)]
pub struct Both<O: Object> {
    pub whole: Hall<O>,
    pub lean: ForgettingHall<O>,
    tickets: Vec<Ticket<O>>,
    alloc: Global,
}

impl<O: Object<Op = Op, Reply = Reply>> Both<O> {
    pub fn new(alloc: Global, members: Members) -> Result<Both<O>, Fail> {
        Ok(Both {
            whole: Hall::new(alloc, members)?,
            lean: ForgettingHall::new(alloc, members)?,
            tickets: Vec::new(alloc),
            alloc,
        })
    }

    /// How many sessions were opened.
    pub fn session_count(&self) -> usize {
        self.tickets.len()
    }

    pub fn open_session(&mut self) -> Result<bool, Fail> {
        let ticket = self.whole.open_session()?;
        let alike = self.lean.open_session()? == ticket.session();
        self.tickets.push(ticket)?;
        Ok(alike)
    }

    /// A session's next command; nothing where there is no such session.
    pub fn submit(&mut self, place: usize, act: Act<Op>, node: u8) -> Result<bool, Fail> {
        let Some(ticket) = self.tickets.get_mut(place) else {
            return Ok(true);
        };
        let session = ticket.session();
        let copy = act.copy()?;
        let answered = self.whole.submit(ticket, act, node);
        Ok(answered == self.lean.submit(session, copy, node))
    }

    /// A session's last command once more.
    pub fn resubmit(&mut self, place: usize, node: u8) -> bool {
        let Some(ticket) = self.tickets.get(place) else {
            return true;
        };
        let answered = self.whole.resubmit(ticket, node);
        answered == self.lean.resubmit(ticket.session(), node)
    }

    /// The next second.
    pub fn tick(&mut self, node: u8) -> bool {
        let second = self.whole.last_second().saturating_add(1);
        self.whole.tick(second, node) == self.lean.tick(node)
    }

    pub fn act(&mut self, node: u8, turn: Turn) -> bool {
        self.whole.act(node, turn.deed()) == self.lean.act(node, turn.deed())
    }

    /// The letter in front of a node's mail; one of which nothing is left is lost to the hall that keeps everything.
    pub fn deliver(&mut self, node: u8) -> Result<bool, Fail> {
        match self.lean.deliver(node)? {
            Receipt::Nothing => Ok(!self.whole.deliver(node)?),
            Receipt::Forgotten => Ok(self.whole.lose(node)?),
            Receipt::Received => Ok(self.whole.deliver(node)?),
        }
    }

    pub fn lose(&mut self, node: u8) -> bool {
        self.whole.lose(node) == self.lean.lose(node)
    }

    pub fn repeat(&mut self, node: u8) -> bool {
        self.whole.repeat(node) == self.lean.repeat(node)
    }

    /// The one hall forgets what it can: its base rises by the lag, which is 0 then.
    pub fn forget(&mut self) -> bool {
        let base = self.lean.base().saturating_add(self.lean.lag());
        self.lean.forget();
        self.lean.base() == base && self.lean.lag() == 0
    }

    /// Whether the node has the same to do in both, and they have come as far.
    pub fn look_alike(&self, node: u8) -> bool {
        self.whole.work(node) == self.lean.work(node)
            && self.whole.undecided(node) == self.lean.undecided(node)
            && self.whole.last_second() == self.lean.last_second()
            && self.whole.answer_count() as u64 == self.lean.answer_count()
    }

    /// Whether each session's last command has the same reply in both, or none.
    pub fn have_same_replies(&self) -> bool {
        for ticket in &self.tickets {
            if self.whole.take_answer(ticket) != self.lean.reply(ticket.session()) {
                return false;
            }
        }
        true
    }

    /// Whether the one has noted all sessions that the other has answered since `count` answers were given, and no others.
    pub fn have_noted(&mut self, count: usize) -> Result<bool, Fail> {
        let mut sessions = Vec::new(self.alloc);
        for index in count..self.whole.answer_count() {
            let key = self.whole.answered_key(index).ok_or("no answer")?;
            sessions.push(key.session)?;
        }
        Ok(self.lean.take_answered() == sessions)
    }
}
