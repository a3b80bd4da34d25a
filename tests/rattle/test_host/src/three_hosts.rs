//! Three hosts decide a command, one of them forgets its slot, and another can't read that one's report then.
use ballot::Members;
use host::{Account, Envelope, Host, HostDeed, Outbox, Receipt};
use object::{Act, Answer, Command, Key, Register, RegisterOp, RegisterReply};
use std::alloc::Global;
use std::test::Fail;

/// How many envelopes came, by what came of them.
#[derive(Debug, Drop)]
struct Counts {
    received: usize,
    aside: usize,
    illegible: usize,
    others: usize,
}

/// The hosts, what comes to them next, and the answers.
#[derive(Drop)]
struct Three {
    alloc: Global,
    hosts: Vec<Host<Register>>,
    accounts: Vec<Account>,
    sent: Vec<Envelope<Command<RegisterOp>>>,
    answers: Vec<Answer<RegisterReply>>,
    counts: Counts,
}

impl Three {
    fn new(alloc: Global) -> Result<Three, Fail> {
        let members = Members::new(3).ok_or("no members")?;
        let mut hosts = Vec::new(alloc);
        let mut accounts = Vec::new(alloc);
        for number in 1..4 {
            let (host, account) = Host::new(alloc, members, number)?;
            hosts.push(host)?;
            accounts.push(account)?;
        }
        Ok(Three {
            alloc,
            hosts,
            accounts,
            sent: Vec::new(alloc),
            answers: Vec::new(alloc),
            counts: Counts {
                received: 0,
                aside: 0,
                illegible: 0,
                others: 0,
            },
        })
    }

    fn act(&mut self, place: usize, deed: HostDeed<RegisterOp>) -> Result<(), Fail> {
        let mut sent = self.hosts[place].outbox(self.alloc);
        self.hosts[place].act(deed, &mut sent, &mut self.answers)?;
        self.send(sent)
    }

    fn send(&mut self, sent: Outbox<Command<RegisterOp>>) -> Result<(), Fail> {
        for envelope in sent.into_envelopes()? {
            self.sent.push(envelope)?;
        }
        Ok(())
    }

    /// All that was sent comes, in order, and each host votes, proposes and performs.
    fn turn(&mut self) -> Result<(), Fail> {
        let envelopes = std::mem::replace(&mut self.sent, Vec::new(self.alloc));
        for envelope in envelopes {
            self.receive(envelope)?;
        }
        for place in 0..self.hosts.len() {
            self.vote(place)?;
            self.act(place, HostDeed::Propose)?;
            self.act(place, HostDeed::Perform)?;
        }
        Ok(())
    }

    fn receive(&mut self, envelope: Envelope<Command<RegisterOp>>) -> Result<(), Fail> {
        let to = usize::from(envelope.letter().to - 1);
        let mut sent = self.hosts[to].outbox(self.alloc);
        match self.hosts[to].receive(envelope, &mut sent)? {
            Receipt::Received => self.counts.received += 1,
            Receipt::Aside => self.counts.aside += 1,
            Receipt::Illegible => self.counts.illegible += 1,
            _ => self.counts.others += 1,
        }
        self.send(sent)
    }

    /// A host's journal writes and keeps at most 20 records, and the host votes.
    fn vote(&mut self, place: usize) -> Result<(), Fail> {
        for _ in 0..20 {
            let written = self.accounts[place].written();
            if self.hosts[place].record(written).is_some() {
                self.accounts[place].write().ok_or("records are uncounted")?;
            }
        }
        let written = self.accounts[place].written();
        let kept = self.accounts[place].keep(written).ok_or("nothing is kept")?;
        let mut sent = self.hosts[place].outbox(self.alloc);
        self.hosts[place].vote(kept, &mut sent)?;
        self.send(sent)
    }
}

/// A write of 7, as a session's first command.
fn write() -> Result<Command<RegisterOp>, Fail> {
    let key = Key {
        session: 1,
        number: 1,
    };
    Ok(Command::new(key, Act::Do(RegisterOp::Write(7))).ok_or("no command")?)
}

/// Three hosts that have performed the write in slot 1, as each tells.
fn decided(alloc: Global) -> Result<Three, Fail> {
    let mut three = Three::new(alloc)?;
    three.act(0, HostDeed::Wake)?;
    three.act(0, HostDeed::Request(write()?))?;
    for _ in 0..12 {
        three.turn()?;
    }
    Ok(three)
}

#[test]
fn three_hosts_decide(rt: HostRuntime) -> Result<(), Fail> {
    let three = decided(rt.alloc())?;
    assert_eq!(rt; three.answers.len(), 3);
    // a P1a and a P2a to each
    assert_eq!(rt; three.counts.aside, 6);
    assert!(rt;
        three.counts.illegible == 0 && three.counts.others == 0,
        "{:?}",
        three.counts
    );
    for host in &three.hosts {
        assert!(rt; host.slot_out() == 2 && host.voted() == 2 && host.leader() == Some(1));
    }
    Ok(())
}

#[test]
fn a_request_that_took_effect_is_none(rt: HostRuntime) -> Result<(), Fail> {
    let mut three = decided(rt.alloc())?;
    let len = three.sent.len();
    three.act(1, HostDeed::Request(write()?))?;
    three.act(1, HostDeed::Propose)?;
    assert_eq!(rt; three.sent.len(), len);
    Ok(())
}

#[test]
fn a_report_that_left_out_more_is_not_read(rt: HostRuntime) -> Result<(), Fail> {
    let mut three = decided(rt.alloc())?;
    three.hosts[1].forget(2);
    three.act(2, HostDeed::Wake)?;
    for _ in 0..3 {
        three.turn()?;
    }
    assert_eq!(rt; three.counts.illegible, 1);
    // the reports of the other two make a majority
    assert!(rt; three.hosts[2].node().is_active());
    Ok(())
}
