//! One host, its account and what is on its way to it.

use ballot::{Letter, Members};
use host::{Account, Envelope, Host, HostDeed, Outbox};
use node::Outcome;
use object::{Answer, Command, Key, Register, RegisterOp, RegisterReply};
use std::alloc::Global;
use std::collections::VecDeque;

/// What is on its way.
pub type Mail = VecDeque<Envelope<Command<RegisterOp>>>;

/// A host and its mail.
#[derive(Drop)]
pub struct Place {
    alloc: Global,
    host: Host<Register>,
    account: Account,
    pub mail: Mail,
    /// The answers that it gave, and the keys of what took effect.
    pub answers: Vec<Answer<RegisterReply>>,
    pub performed: Vec<Key>,
}

impl Place {
    pub fn new(alloc: Global, members: Members, number: u8) -> Option<Place> {
        if !members.has(number) {
            return None;
        }
        let (host, account) = Host::new(alloc, members, number).ok()?;
        Some(Place {
            alloc,
            host,
            account,
            mail: VecDeque::new(alloc),
            answers: Vec::new(alloc),
            performed: Vec::new(alloc),
        })
    }

    /// Whether its leader is active.
    pub fn leads(&self) -> bool {
        self.host.node().is_active()
    }

    /// Does this by itself, and appends what it sends.
    pub fn act(&mut self, deed: HostDeed<RegisterOp>, out: &mut Mail) -> Option<Outcome> {
        let mut sent = self.host.outbox(self.alloc);
        let outcome = self.host.act(deed, &mut sent, &mut self.answers).ok()?;
        send(sent, out)?;
        Some(outcome)
    }

    /// A turn: takes its mail, votes, performs, proposes and forgets, as far as there is something to do.
    pub fn turn(&mut self, out: &mut Mail) -> Option<()> {
        for _ in 0..self.mail.len() {
            let envelope = self.mail.pop_front()?;
            let mut sent = self.host.outbox(self.alloc);
            self.host.receive(envelope, &mut sent).ok()?;
            send(sent, out)?;
        }
        self.vote(out)?;
        for _ in 0..u64::MAX {
            match self.act(HostDeed::Perform, out)? {
                Outcome::Performed(performed) => self.performed.push(performed.key).ok()?,
                _ => break,
            }
        }
        for _ in 0..u64::MAX {
            if self.act(HostDeed::Propose, out)? == Outcome::Idle {
                break;
            }
        }
        self.host.forget(self.host.slot_out());
        Some(())
    }

    // Its journal keeps all records at once.
    fn vote(&mut self, out: &mut Mail) -> Option<()> {
        for _ in 0..u64::MAX {
            if self.host.record(self.account.written()).is_none() {
                break;
            }
            self.account.write()?;
        }
        let kept = self.account.keep(self.account.written())?;
        let mut sent = self.host.outbox(self.alloc);
        self.host.vote(kept, &mut sent).ok()?;
        send(sent, out)
    }
}

// What a host sent goes on its way.
fn send(sent: Outbox<Command<RegisterOp>>, out: &mut Mail) -> Option<()> {
    for envelope in sent.into_envelopes().ok()? {
        out.push_back(envelope).ok()?;
    }
    Some(())
}
