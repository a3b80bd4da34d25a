//! What is on its way between the hosts.
use crate::draws::Draws;
use host::Envelope;
use object::{Command, RegisterOp, Value};
use std::alloc::Global;
use std::test::Fail;

/// So many of the letters that are lost may come late.
const MOST_LATE: usize = 256;

/// A letter on its way.
pub type Sent = Envelope<Command<RegisterOp>>;

/// The letters on their way, and those that are lost.
#[derive(Drop)]
pub struct Post {
    alloc: Global,
    under_way: Vec<Sent>,
    /// What was lost, but may come late.
    lost: Vec<Sent>,
}

impl Post {
    pub fn new(alloc: Global) -> Post {
        Post {
            alloc,
            under_way: Vec::new(alloc),
            lost: Vec::new(alloc),
        }
    }

    /// How many letters are on their way.
    pub fn len(&self) -> usize {
        self.under_way.len()
    }

    /// A letter goes on its way.
    pub fn send(&mut self, envelope: Sent) -> Result<(), Fail> {
        self.under_way.push(envelope)?;
        Ok(())
    }

    /// Any letter comes.
    pub fn take(&mut self, draws: &mut Draws) -> Option<Sent> {
        if self.under_way.is_empty() {
            return None;
        }
        let place = draws.place(self.under_way.len());
        Some(self.under_way.swap_remove(place))
    }

    /// All letters come.
    pub fn take_all(&mut self) -> Vec<Sent> {
        std::mem::replace(&mut self.under_way, Vec::new(self.alloc))
    }

    /// A letter is lost. It may come late.
    pub fn lose(&mut self, envelope: Sent, draws: &mut Draws) -> Result<(), Fail> {
        if self.lost.len() == MOST_LATE {
            self.lost.swap_remove(draws.place(MOST_LATE));
        }
        self.lost.push(envelope)?;
        Ok(())
    }

    /// Any letter that is on its way, once more.
    pub fn copy(&self, draws: &mut Draws) -> Result<Option<Sent>, Fail> {
        match self.under_way.get(draws.place(self.under_way.len())) {
            None => Ok(None),
            Some(envelope) => Ok(Some(copy_of(envelope)?)),
        }
    }

    /// A lost letter that comes late, where there is one.
    pub fn find(&mut self, draws: &mut Draws) -> Option<Sent> {
        if self.lost.is_empty() {
            return None;
        }
        let place = draws.place(self.lost.len());
        Some(self.lost.swap_remove(place))
    }

    /// All that was lost is on its way again.
    pub fn find_all(&mut self) -> Result<(), Fail> {
        for envelope in std::mem::replace(&mut self.lost, Vec::new(self.alloc)) {
            self.under_way.push(envelope)?;
        }
        Ok(())
    }
}

fn copy_of(envelope: &Sent) -> Result<Sent, Fail> {
    Ok(Envelope::new(envelope.label(), envelope.letter().copy()?))
}
