//! What outlives a host's process.
use ballot::{Ballot, LetterBody};
use host::Stored;
use object::{Command, RegisterOp, Value};
use std::alloc::Global;
use std::test::Fail;

/// A record of a journal.
#[derive(Drop)]
enum Record {
    Heard(LetterBody<Command<RegisterOp>>),
    Began(u64),
    Forgot(u64),
}

/// A journal, of whose records the last ones may not be synced yet, the slot of a snapshot, and a count of events.
#[derive(Drop)]
pub struct Disk {
    alloc: Global,
    records: Vec<Record>,
    /// So many of the records are synced.
    synced: usize,
    /// The slot of the snapshot, which has obeyed what is decided before.
    pub slot: u64,
    /// So many events the host had at most.
    events: u64,
}

impl Disk {
    /// That of a host to which nothing happened yet: slot 1 is the first.
    pub fn new(alloc: Global) -> Disk {
        Disk {
            alloc,
            records: Vec::new(alloc),
            synced: 0,
            slot: 1,
            events: 0,
        }
    }

    /// How many records aren't synced.
    pub fn unsynced(&self) -> usize {
        self.records.len() - self.synced
    }

    /// So many events the host had at most.
    pub fn events(&self) -> u64 {
        self.events
    }

    /// Counts the events of a host: what is written it has received, or may yet turn out to have.
    pub fn reserve(&mut self, events: u64) {
        self.events = self.events.max(events + self.unsynced() as u64);
    }

    /// Writes what a host received.
    pub fn write(&mut self, body: LetterBody<Command<RegisterOp>>) -> Result<(), Fail> {
        self.records.push(Record::Heard(body))?;
        Ok(())
    }

    /// So many records more are synced.
    pub fn sync(&mut self, count: usize) {
        self.synced += count;
    }

    /// Writes that the host began anew, and syncs it.
    pub fn begin(&mut self, boot: u64) -> Result<(), Fail> {
        self.records.push(Record::Began(boot))?;
        self.synced = self.records.len();
        Ok(())
    }

    /// Of the records that aren't synced so many turn out to be there, and the others are gone.
    pub fn cut(&mut self, count: usize) {
        self.synced += count;
        self.records.truncate(self.synced);
    }

    /// What the synced records amount to.
    pub fn stored(&self) -> Result<Stored<RegisterOp>, Fail> {
        let mut stored = Stored::new(self.alloc);
        for record in &self.records.as_slice()[..self.synced] {
            match record {
                Record::Heard(body) => stored.hear(body)?,
                Record::Began(boot) => stored.begin(*boot),
                Record::Forgot(base) => stored.forget(*base),
            }
        }
        Ok(stored)
    }

    /// Writes anew what is synced, from this base on, beside a snapshot of a slot that is no lower.
    pub fn rewrite(&mut self, base: u64, slot: u64) -> Result<(), Fail> {
        let mut stored = self.stored()?;
        stored.forget(base);
        let unsynced = self.unsynced();
        let mut records = head_of(self.alloc, &stored)?;
        let synced = records.len();
        let old = std::mem::replace(&mut self.records, Vec::new(self.alloc));
        let first = old.len() - unsynced;
        let mut place = 0;
        for record in old {
            if place >= first {
                records.push(record)?;
            }
            place += 1;
        }
        self.records = records;
        self.synced = synced;
        self.slot = slot;
        Ok(())
    }
}

/// Records that amount to this. An acceptance is heard under its own ballot alone, so the lowest ballots come first.
fn head_of(alloc: Global, stored: &Stored<RegisterOp>) -> Result<Vec<Record>, Fail> {
    let mut records = Vec::new(alloc);
    records.push(Record::Forgot(stored.base()))?;
    records.push(Record::Began(stored.boot()))?;
    let Some(promised) = stored.acceptor().promised() else {
        return Ok(records);
    };
    let (_, accepted) = stored.acceptor().copy()?.on_p1a(promised)?;
    let mut ballots: Vec<Ballot> = Vec::new(alloc);
    for pvalue in &accepted {
        ballots.push(pvalue.ballot)?;
    }
    ballots.sort_unstable();
    ballots.dedup();
    for ballot in &ballots {
        records.push(Record::Heard(LetterBody::P1a(*ballot)))?;
        for pvalue in &accepted {
            if pvalue.ballot == *ballot {
                records.push(Record::Heard(LetterBody::P2a(pvalue.copy()?)))?;
            }
        }
    }
    records.push(Record::Heard(LetterBody::P1a(promised)))?;
    Ok(records)
}
