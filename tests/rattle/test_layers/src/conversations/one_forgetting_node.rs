//! The desk of a hall of one node, which forgets.
use crate::conversations::driven_desk::DrivenDesk;
use ballot::Members;
use bean_words::{Op, Reply};
use conversation::{Desk, LeanTicket, SessionTicket};
use forgetting_hall::ForgettingHall;
use hall::HallError;
use node::Deed;
use object::{Act, Object, Value};
use std::alloc::{AllocError, Global};
use std::test::Fail;

/// A hall of one node, which refuses the next act for want of memory where it is told to, and forgets each slot once that is
/// performed.
#[derive(Drop)]
pub struct OneForgettingNode<O: Object> {
    pub hall: ForgettingHall<O>,
    refuses: bool,
}

impl<O: Object> OneForgettingNode<O> {
    /// A hall whose node leads.
    pub fn new(alloc: Global) -> Result<OneForgettingNode<O>, Fail> {
        let members = Members::new(1).ok_or("no members")?;
        let mut hall = ForgettingHall::new(alloc, members)?;
        hall.act(1, Deed::Wake)?;
        Ok(OneForgettingNode {
            hall,
            refuses: false,
        })
    }
}

impl<O: Object<Op = Op, Reply = Reply>> Desk for OneForgettingNode<O> {
    type Ticket = LeanTicket;

    ghost use Rattle.conversation.specs.Tickets.{last_lean_key};
    ghost use Rattle.forgetting_hall.specs.Handing.{reply_to};

    ghost submits = { λ _ _ _ _ _. Unit {0} };

    ghost to_note = { λ desk ticket. reply_to desk.hall (last_lean_key ticket) };

    fn submit(&mut self, ticket: &mut LeanTicket, act: Act<Op>) -> Result<(), HallError> {
        if self.refuses {
            self.refuses = false;
            return Err(HallError::OutOfMemory);
        }
        let last = ticket.last_key();
        if self.hall.last_number(last.session) != last.number {
            return Err(HallError::BadNumber);
        }
        self.hall.submit(last.session, act, 1)?;
        ticket.hand_in();
        Ok(())
    }

    fn note(&self, ticket: &mut LeanTicket) -> Result<bool, AllocError> {
        let Some(reply) = self.hall.reply_to(ticket.last_key()) else {
            return Ok(false);
        };
        ticket.note(reply.copy()?);
        Ok(true)
    }
}

impl<O: Object<Op = Op, Reply = Reply>> DrivenDesk for OneForgettingNode<O> {
    fn open_session(&mut self) -> Result<LeanTicket, Fail> {
        Ok(LeanTicket::new(self.hall.open_session()?))
    }

    fn refuse(&mut self) {
        self.refuses = true;
    }

    fn work(&mut self) -> Result<(), Fail> {
        self.hall.act(1, Deed::Propose)?;
        for _ in 0..20 {
            self.hall.deliver(1)?;
        }
        self.hall.act(1, Deed::Perform)?;
        self.hall.forget();
        Ok(())
    }

    fn agrees(&self, ticket: &LeanTicket) -> bool {
        self.hall.reply(ticket.session()) == ticket.noted()
    }
}
