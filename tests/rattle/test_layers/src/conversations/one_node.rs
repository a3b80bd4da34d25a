//! The desk of a hall of one node, which keeps all.
ghost use Rattle.hall.specs.Halls.{to_note};

use crate::conversations::driven_desk::DrivenDesk;
use ballot::Members;
use bean_words::{Op, Reply};
use conversation::Desk;
use hall::{Hall, HallError, Ticket};
use object::{Act, Object};
use std::alloc::{AllocError, Global};
use std::test::Fail;

/// A hall of one node, which refuses the next act for want of memory where it is told to.
#[derive(Drop)]
pub struct OneNode<O: Object> {
    hall: Hall<O>,
    refuses: bool,
}

impl<O: Object> OneNode<O> {
    /// A hall whose node leads.
    pub fn new(alloc: Global) -> Result<OneNode<O>, Fail> {
        let members = Members::new(1).ok_or("no members")?;
        let mut hall = Hall::new(alloc, members)?;
        hall.wake(1)?;
        Ok(OneNode {
            hall,
            refuses: false,
        })
    }
}

impl<O: Object<Op = Op, Reply = Reply>> Desk for OneNode<O> {
    type Ticket = Ticket<O>;

    ghost submits = { λ _ _ _ _ _. Unit {0} };

    ghost to_note = { λ d t. to_note d.hall t };

    fn submit(&mut self, ticket: &mut Ticket<O>, act: Act<Op>) -> Result<(), HallError> {
        if self.refuses {
            self.refuses = false;
            return Err(HallError::OutOfMemory);
        }
        self.hall.submit(ticket, act, 1)
    }

    fn note(&self, ticket: &mut Ticket<O>) -> Result<bool, AllocError> {
        self.hall.note(ticket)
    }
}

impl<O: Object<Op = Op, Reply = Reply>> DrivenDesk for OneNode<O> {
    fn open_session(&mut self) -> Result<Ticket<O>, Fail> {
        Ok(self.hall.open_session()?)
    }

    fn refuse(&mut self) {
        self.refuses = true;
    }

    fn work(&mut self) -> Result<(), Fail> {
        self.hall.propose(1)?;
        for _ in 0..20 {
            self.hall.deliver(1)?;
        }
        self.hall.perform(1)?;
        Ok(())
    }

    fn agrees(&self, ticket: &Ticket<O>) -> bool {
        self.hall.agrees(ticket)
    }
}
