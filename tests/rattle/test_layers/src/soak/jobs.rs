//! The jobs as the sessions were told of them.
use bean_words::Body;
use std::alloc::Global;
use std::collections::BTreeMap;
use std::string::String;
use std::test::Fail;

/// What no session may be told.
#[derive(Clone, Copy, Debug, PartialEq, Eq)]
pub enum Fault {
    /// Two jobs were put under this id.
    PutTwice(u64),
    /// No job was put under this id.
    NeverPut(u64),
    /// The job has another body than was put.
    OtherBody(u64),
    /// The job is here, where it may only be there.
    Misplaced { id: u64, here: Place, there: Place },
    /// A session got a reply that isn't one to what it asked for.
    OtherReply(u32),
}

/// Where a job is.
#[derive(Clone, Copy, Debug, PartialEq, Eq)]
pub enum Place {
    /// Ready, delayed, or held by a session that has left.
    Free,
    Held(u32),
    Buried,
    Deleted,
}

/// A job: the session that put it, how many this one put before, and where it is.
#[derive(Drop)]
struct Job {
    owner: u32,
    number: u64,
    place: Place,
}

/// All jobs by their ids.
#[derive(Drop)]
pub struct Jobs {
    by_id: BTreeMap<u64, Job>,
    alloc: Global,
}

impl Jobs {
    pub fn new(alloc: Global) -> Jobs {
        Jobs {
            by_id: BTreeMap::new(alloc),
            alloc,
        }
    }

    /// A session put its next job, under a new id.
    pub fn put(&mut self, id: u64, owner: u32, number: u64) -> Result<(), Fail> {
        let job = Job {
            owner,
            number,
            place: Place::Free,
        };
        if self.by_id.insert(id, job)?.is_some() {
            return Err(Fault::PutTwice(id).into());
        }
        Ok(())
    }

    /// A session got a job: nobody else has it, and its body is what was put.
    pub fn give(&mut self, id: u64, body: &Body, session: u32) -> Result<(), Fail> {
        self.shift(id, Place::Free, Place::Held(session))?;
        let job = self.by_id.get(&id).ok_or(Fault::NeverPut(id))?;
        if body.as_slice() != body_text(self.alloc, job.owner, job.number)?.as_bytes() {
            return Err(Fault::OtherBody(id).into());
        }
        Ok(())
    }

    /// A job goes from one place to another.
    pub fn shift(&mut self, id: u64, from: Place, to: Place) -> Result<(), Fail> {
        let job = self.by_id.get_mut(&id).ok_or(Fault::NeverPut(id))?;
        if job.place != from {
            let fault = Fault::Misplaced {
                id,
                here: job.place,
                there: from,
            };
            return Err(fault.into());
        }
        job.place = to;
        Ok(())
    }

    /// All buried jobs are free. How many there were.
    pub fn free_buried(&mut self) -> u64 {
        let mut count = 0u64;
        for job in self.by_id.values_mut() {
            if job.place == Place::Buried {
                job.place = Place::Free;
                count = count.saturating_add(1);
            }
        }
        count
    }

    /// How many jobs are in this place.
    pub fn count(&self, place: Place) -> u64 {
        let mut count = 0u64;
        for job in self.by_id.values() {
            if job.place == place {
                count = count.saturating_add(1);
            }
        }
        count
    }

    /// How many jobs were put.
    pub fn len(&self) -> u64 {
        self.by_id.len() as u64
    }
}

/// The body of a job: who puts it, and how many jobs it put before.
pub fn body_text(alloc: Global, owner: u32, number: u64) -> Result<String, Fail> {
    Ok(format!(in alloc; "{owner} {number}")?)
}
