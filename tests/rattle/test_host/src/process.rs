//! A process that runs: a host, and the account of its journal.
use crate::disk::Disk;
use crate::post::Sent;
use host::{Account, Host, HostDeed, Kept, Outbox, Receipt};
use node::Outcome;
use object::{Answer, Command, Register, RegisterOp, RegisterReply, Value};
use std::alloc::Global;
use std::test::Fail;

/// What a host sends.
pub type Outgoing = Outbox<Command<RegisterOp>>;

/// A host, and the account of its journal.
#[derive(Drop)]
pub struct Process {
    alloc: Global,
    pub host: Host<Register>,
    account: Account,
}

impl Process {
    pub fn new(alloc: Global, host: Host<Register>, account: Account) -> Process {
        Process {
            alloc,
            host,
            account,
        }
    }

    /// The host does this by itself.
    pub fn act(
        &mut self,
        deed: HostDeed<RegisterOp>,
        answers: &mut Vec<Answer<RegisterReply>>,
    ) -> Result<(Outcome, Outgoing), Fail> {
        let mut sent = self.host.outbox(self.alloc);
        let outcome = self.host.act(deed, &mut sent, answers)?;
        Ok((outcome, sent))
    }

    /// A letter comes to the host.
    pub fn receive(&mut self, envelope: Sent) -> Result<(Receipt, Outgoing), Fail> {
        let mut sent = self.host.outbox(self.alloc);
        let receipt = self.host.receive(envelope, &mut sent)?;
        Ok((receipt, sent))
    }

    /// The journal writes the records of what was put aside, but so many at most. It answers how many.
    pub fn write(&mut self, most: usize, disk: &mut Disk) -> Result<usize, Fail> {
        for count in 0..most {
            let Some(envelope) = self.host.record(self.account.written()) else {
                return Ok(count);
            };
            disk.write(envelope.letter().body.copy()?)?;
            self.account.write().ok_or("records are uncounted")?;
        }
        Ok(most)
    }

    /// So many records more are synced, and the host votes.
    pub fn sync(&mut self, count: usize, disk: &mut Disk) -> Result<Outgoing, Fail> {
        disk.sync(count);
        let upto = self.account.kept() + count as u64;
        let kept = self.account.keep(upto).ok_or("nothing is kept")?;
        let sent = self.vote(kept)?;
        if self.host.voted() != upto {
            return Err("a host hasn't voted on what is kept".into());
        }
        Ok(sent)
    }

    /// The host votes, as far as this witness says.
    pub fn vote(&mut self, kept: Kept) -> Result<Outgoing, Fail> {
        let mut sent = self.host.outbox(self.alloc);
        self.host.vote(kept, &mut sent)?;
        Ok(sent)
    }

    /// The process ends. What is left is a witness for all that was written, synced or not.
    pub fn end(mut self) -> Option<Kept> {
        let written = self.account.written();
        self.account.keep(written)
    }
}
