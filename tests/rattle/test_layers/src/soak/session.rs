//! A session: what it asks for, as it is drawn, and what it is told.
use crate::soak::draws::Draws;
use crate::soak::jobs::{Fault, Jobs, Place, body_text};
use bean_words::{Body, Op, Reply};
use std::alloc::Global;
use std::test::Fail;

/// Who reserves a job has it for so many seconds: longer than any run.
const TTR: u32 = 1_000;

/// What a session asks for.
#[derive(Clone, Copy, PartialEq, Eq)]
pub enum Ask {
    Put,
    Reserve { seconds: Option<u32> },
    Delete(u64),
    Release(u64),
    Bury(u64),
    KickJob(u64),
    /// So many buried jobs at most.
    Kick(u32),
}

impl Ask {
    /// Whether it makes a job free, if it is one that another session may get at once.
    pub fn frees(self) -> bool {
        matches!(self, Ask::Put | Ask::Release(_) | Ask::KickJob(_))
    }
}

/// The job that a session got last, if it still has to do with it.
#[derive(Clone, Copy, PartialEq, Eq)]
enum Hold {
    Nothing,
    Held(u64),
    Buried(u64),
}

/// A session that asks for one thing after the other.
#[derive(Drop)]
pub struct Session {
    number: u32,
    /// How many jobs it put.
    puts: u64,
    /// What it waits for.
    asked: Option<Ask>,
    hold: Hold,
}

impl Session {
    /// A session of this number, which has asked for nothing.
    pub fn new(number: u32) -> Session {
        Session {
            number,
            puts: 0,
            asked: None,
            hold: Hold::Nothing,
        }
    }

    pub fn number(&self) -> u32 {
        self.number
    }

    /// What it waits for.
    pub fn asked(&self) -> Option<Ask> {
        self.asked
    }

    /// Whether it may leave: it waits for nothing, or for a job.
    pub fn may_leave(&self) -> bool {
        matches!(self.asked, None | Some(Ask::Reserve { .. }))
    }

    /// Whether it has the job that it got last.
    pub fn has_job(&self) -> bool {
        matches!(self.hold, Hold::Held(_))
    }

    /// What it asks for next.
    pub fn draw_ask(&self, draws: &mut Draws) -> Ask {
        match self.hold {
            Hold::Nothing => match draws.below(16) {
                0..4 => Ask::Put,
                4..7 => Ask::Reserve { seconds: None },
                _ => Ask::Reserve {
                    seconds: Some(draws.below(6)),
                },
            },
            Hold::Held(id) => match draws.below(8) {
                0 => Ask::Put,
                1..5 => Ask::Delete(id),
                5..7 => Ask::Release(id),
                _ => Ask::Bury(id),
            },
            Hold::Buried(id) => match draws.below(4) {
                0 => Ask::Put,
                _ => Ask::KickJob(id),
            },
        }
    }

    /// It asks for this, by the operation that is answered.
    pub fn begin(&mut self, alloc: Global, ask: Ask, draws: &mut Draws) -> Result<Op, Fail> {
        self.asked = Some(ask);
        Ok(match ask {
            Ask::Put => Op::Put {
                pri: draws.below(4),
                delay: draws.below(8).saturating_sub(4),
                ttr: TTR,
                body: self.next_body(alloc)?,
            },
            Ask::Reserve { seconds } => Op::Reserve { seconds },
            Ask::Delete(id) => Op::Delete(id),
            Ask::Release(id) => Op::Release {
                id,
                pri: draws.below(4),
                delay: draws.below(6).saturating_sub(3),
            },
            Ask::Bury(id) => Op::Bury {
                id,
                pri: draws.below(4),
            },
            Ask::KickJob(id) => Op::KickJob(id),
            Ask::Kick(bound) => Op::Kick(bound),
        })
    }

    fn next_body(&self, alloc: Global) -> Result<Body, Fail> {
        let text = body_text(alloc, self.number, self.puts)?;
        Ok(Body::new(alloc, text.as_bytes())?)
    }

    /// It is told this reply.
    pub fn hear(&mut self, reply: &Reply, jobs: &mut Jobs) -> Result<(), Fail> {
        let held = Place::Held(self.number);
        match (self.asked, reply) {
            (Some(Ask::Put), Reply::Inserted(id)) => {
                jobs.put(*id, self.number, self.puts)?;
                self.puts = self.puts.saturating_add(1);
            }
            (Some(Ask::Reserve { .. }), Reply::Reserved { id, body }) => {
                jobs.give(*id, body, self.number)?;
                self.hold = Hold::Held(*id);
            }
            (Some(Ask::Reserve { seconds: Some(_) }), Reply::TimedOut) => {
                self.hold = Hold::Nothing;
            }
            (Some(Ask::Delete(id)), Reply::Deleted) => {
                jobs.shift(id, held, Place::Deleted)?;
                self.hold = Hold::Nothing;
            }
            (Some(Ask::Release(id)), Reply::Released) => {
                jobs.shift(id, held, Place::Free)?;
                self.hold = Hold::Nothing;
            }
            (Some(Ask::Bury(id)), Reply::Buried) => {
                jobs.shift(id, held, Place::Buried)?;
                self.hold = Hold::Buried(id);
            }
            (Some(Ask::KickJob(id)), Reply::Kicked) => {
                jobs.shift(id, Place::Buried, Place::Free)?;
                self.hold = Hold::Nothing;
            }
            (Some(Ask::Kick(_)), Reply::KickedCount(count)) if jobs.free_buried() == *count => {}
            _ => return Err(Fault::OtherReply(self.number).into()),
        }
        self.asked = None;
        Ok(())
    }

    /// It leaves: the job that it has is free.
    pub fn leave(&self, jobs: &mut Jobs) -> Result<(), Fail> {
        match self.hold {
            Hold::Held(id) => jobs.shift(id, Place::Held(self.number), Place::Free),
            Hold::Nothing | Hold::Buried(_) => Ok(()),
        }
    }
}
