//! A hall of one node that answers a put.
use crate::dumps::ONE_PUT;
use crate::outcome::Outcome;
use crate::subject::{Refusal, Subject, Then, walk};
use ballot::Members;
use bean_queue::Queue;
use bean_words::{Body, Op};
use chronicle_text::WriteText;
use hall::{Hall, HallError, Ticket};
use object::{Act, Value};
use std::alloc::{AllocError, Global};

impl From<HallError> for Refusal {
    fn from(error: HallError) -> Refusal {
        match error {
            HallError::OutOfMemory => Refusal::OutOfMemory,
            _ => Refusal::Other,
        }
    }
}

/// A call of the hall, for a session at node 1.
#[derive(Clone, Copy)]
enum Call {
    /// A put of a body of one byte.
    Put,
    Reserve,
    Close,
    Resubmit,
    OpenSession,
    Tick,
    Deliver,
    Repeat,
    Wake,
    Nudge,
    Propose,
    Perform,
    Restart,
    Note,
    Dump,
}

/// The calls, and what each answers: whether it did something.
const CALLS: &[(Call, bool)] = &[
    (Call::Put, true),
    (Call::Propose, true),
    (Call::Propose, false),
    (Call::Repeat, true),
    (Call::Wake, true),
    (Call::Perform, false),
    (Call::Deliver, true),
    (Call::Deliver, true),
    (Call::Deliver, true),
    (Call::Deliver, true),
    (Call::Deliver, true),
    (Call::Deliver, true),
    (Call::Deliver, true),
    (Call::Deliver, false),
    (Call::Perform, true),
    (Call::Perform, false),
    (Call::Note, true),
    (Call::Note, false),
    (Call::Dump, true),
    (Call::Resubmit, true),
    (Call::Nudge, true),
    (Call::Tick, true),
    (Call::OpenSession, true),
    (Call::Restart, true),
    (Call::Reserve, true),
    (Call::Resubmit, true),
    (Call::Close, true),
];

/// A hall with the ticket of a session, and the body that the session puts.
#[derive(Drop)]
struct Visited {
    alloc: Global,
    hall: Hall<Queue>,
    ticket: Ticket<Queue>,
    body: Body,
}

impl Visited {
    fn new(alloc: Global) -> Option<Visited> {
        let mut hall = Hall::new(alloc, Members::new(1)?).ok()?;
        let ticket = hall.open_session().ok()?;
        let body = Body::new(alloc, b"x").ok()?;
        Some(Visited {
            alloc,
            hall,
            ticket,
            body,
        })
    }

    // Makes a call of a session, or of its ticket.
    fn ask(&mut self, call: Call) -> Result<bool, Refusal> {
        match call {
            Call::Put => self.submit(Act::Do(self.put()?)),
            Call::Reserve => self.submit(Act::Do(Op::Reserve { seconds: None })),
            Call::Close => self.submit(Act::Close),
            Call::Resubmit => done(self.hall.resubmit(&self.ticket, 1)),
            Call::Note => Ok(self.hall.note(&mut self.ticket)?),
            Call::OpenSession => done(self.hall.open_session().map(|_| ())),
            _ => self.happen(call),
        }
    }

    // A copy of the body shares its bytes.
    fn put(&self) -> Result<Op, Refusal> {
        let body = self.body.copy().map_err(|_| Refusal::Other)?;
        Ok(Op::Put {
            pri: 0,
            delay: 0,
            ttr: 9,
            body,
        })
    }

    fn submit(&mut self, act: Act<Op>) -> Result<bool, Refusal> {
        done(self.hall.submit(&mut self.ticket, act, 1))
    }

    // Makes a call that is no session's.
    fn happen(&mut self, call: Call) -> Result<bool, Refusal> {
        match call {
            Call::Tick => done(self.hall.tick(1, 1)),
            Call::Deliver => Ok(self.hall.deliver(1)?),
            Call::Repeat => Ok(self.hall.repeat(1)?),
            Call::Wake => done(self.hall.wake(1)),
            Call::Nudge => done(self.hall.nudge(1)),
            Call::Propose => Ok(self.hall.propose(1)?),
            Call::Perform => Ok(self.hall.perform(1)?),
            Call::Restart => done(self.hall.restart(1)),
            Call::Dump => Ok(!self.dump()?.is_empty()),
            _ => Err(Refusal::Other),
        }
    }

    fn dump(&self) -> Result<Vec<u8>, AllocError> {
        let mut text = Vec::new(self.alloc);
        self.hall.dump()?.write_text(&mut text)?;
        Ok(text)
    }

    // Whether the ticket and the mail look as those of the other.
    fn looks_like(&self, other: &Visited) -> bool {
        self.hall.work(1) == other.hall.work(1)
            && self.hall.undecided(1) == other.hall.undecided(1)
            && self.hall.last_second() == other.hall.last_second()
            && self.hall.take_answer(&self.ticket) == other.hall.take_answer(&other.ticket)
            && self.ticket.noted() == other.ticket.noted()
            && self.hall.agrees(&self.ticket) == other.hall.agrees(&other.ticket)
    }
}

// A call that has nothing to tell did something.
fn done(answered: Result<(), HallError>) -> Result<bool, Refusal> {
    answered?;
    Ok(true)
}

impl Subject for Visited {
    type Told = ();

    fn make(&mut self, place: usize) -> Result<(), Refusal> {
        let (call, expected) = *CALLS.get(place).ok_or(Refusal::Other)?;
        if self.ask(call)? == expected {
            Ok(())
        } else {
            Err(Refusal::Other)
        }
    }

    fn is_like(&mut self, other: &mut Self) -> Result<bool, AllocError> {
        Ok(self.looks_like(other) && self.dump()? == other.dump()?)
    }
}

/// A put until it is performed, and what comes after it.
pub fn one_put(alloc: Global, then: Then) -> Option<Outcome> {
    let mut tried = Visited::new(alloc)?;
    let mut other = Visited::new(alloc)?;
    let outcome = walk(alloc, &mut tried, &mut other, CALLS.len(), then);
    let is_told = then == Then::Stop || dump_of(&tried)?.as_slice() == ONE_PUT;
    Some(outcome.if_so(is_told, CALLS.len()))
}

// The dump's text; where memory is refused, it is written once more.
fn dump_of(visited: &Visited) -> Option<Vec<u8>> {
    match visited.dump() {
        Ok(text) => Some(text),
        Err(AllocError) => visited.dump().ok(),
    }
}
