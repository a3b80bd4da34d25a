//! A host of one node writes, ends, and comes back with what its disk has.
use ballot::{Members, Slot};
use host::{Account, CatchUp, Envelope, Host, HostDeed, HostFault, Outbox, Stored};
use object::{Act, Command, Key, Once, Register, RegisterOp, Value};
use std::alloc::Global;
use std::test::Fail;

fn write(number: u64) -> Result<Command<RegisterOp>, Fail> {
    let key = Key { session: 1, number };
    Ok(Command::new(key, Act::Do(RegisterOp::Write(number))).ok_or("no command")?)
}

/// The one member.
fn one_member() -> Result<Members, Fail> {
    Ok(Members::new(1).ok_or("no members")?)
}

/// An object that has obeyed so many writes.
fn written(alloc: Global, count: u64) -> Result<Once<Register>, Fail> {
    let mut object = Once::new(alloc)?;
    let mut answers = Vec::new(alloc);
    for number in 1..=count {
        object.apply(&write(number)?, &mut answers)?;
    }
    Ok(object)
}

/// One host, the account of its journal, what its disk has, and what comes to it next.
#[derive(Drop)]
struct Alone {
    alloc: Global,
    host: Host<Register>,
    account: Account,
    stored: Stored<RegisterOp>,
    sent: Vec<Envelope<Command<RegisterOp>>>,
}

impl Alone {
    fn new(alloc: Global) -> Result<Alone, Fail> {
        let (host, account) = Host::new(alloc, one_member()?, 1)?;
        Ok(Alone {
            alloc,
            host,
            account,
            stored: Stored::new(alloc),
            sent: Vec::new(alloc),
        })
    }

    /// It comes back with its disk and an object that has obeyed so many writes.
    fn come_back(self, count: u64) -> Result<Alone, Fail> {
        let slot = Slot::new(count + 1).ok_or("no slot")?;
        let object = written(self.alloc, count)?;
        let events = self.host.events();
        let (host, account) = Host::come_back(
            self.alloc,
            one_member()?,
            1,
            self.stored,
            slot,
            object,
            events,
        )?;
        Ok(Alone {
            alloc: self.alloc,
            host,
            account,
            stored: Stored::new(self.alloc),
            sent: Vec::new(self.alloc),
        })
    }

    fn send(&mut self, sent: Outbox<Command<RegisterOp>>) -> Result<(), Fail> {
        for envelope in sent.into_envelopes()? {
            self.sent.push(envelope)?;
        }
        Ok(())
    }

    fn act(&mut self, deed: HostDeed<RegisterOp>) -> Result<(), Fail> {
        let mut sent = self.host.outbox(self.alloc);
        let mut answers = Vec::new(self.alloc);
        self.host.act(deed, &mut sent, &mut answers)?;
        self.send(sent)
    }

    /// All that was sent comes, its disk hears what is put aside, and it votes, proposes and performs.
    fn turn(&mut self) -> Result<(), Fail> {
        for envelope in std::mem::replace(&mut self.sent, Vec::new(self.alloc)) {
            let mut sent = self.host.outbox(self.alloc);
            self.host.receive(envelope, &mut sent)?;
            self.send(sent)?;
        }
        self.vote()?;
        self.act(HostDeed::Propose)?;
        self.act(HostDeed::Perform)
    }

    fn vote(&mut self) -> Result<(), Fail> {
        for _ in 0..20 {
            let Some(envelope) = self.host.record(self.account.written()) else {
                break;
            };
            self.stored.hear(&envelope.letter().body)?;
            self.account.write().ok_or("records are uncounted")?;
        }
        let written = self.account.written();
        let kept = self.account.keep(written).ok_or("nothing is kept")?;
        let mut sent = self.host.outbox(self.alloc);
        self.host.vote(kept, &mut sent)?;
        self.send(sent)
    }

    /// It leads, and performs its writes of the numbers 1 to 3.
    fn write_three(&mut self) -> Result<(), Fail> {
        self.act(HostDeed::Wake)?;
        for number in 1..4 {
            self.act(HostDeed::Request(write(number)?))?;
        }
        for _ in 0..12 {
            self.turn()?;
        }
        Ok(())
    }
}

#[test]
fn a_host_comes_back_with_its_disk(rt: HostRuntime) -> Result<(), Fail> {
    let mut host = Alone::new(rt.alloc())?;
    host.write_three()?;
    assert_eq!(rt; host.host.slot_out(), 4);
    let events = host.host.events();
    // slot 3 is not in the snapshot, but its vote is on the disk
    let mut back = host.come_back(2)?;
    assert_eq!(rt; back.host.events(), events + 1 + 2 * 3);
    assert!(rt; back.host.slot_out() == 3 && back.host.base() == 3);
    assert!(rt; back.host.node().boot() == 1 && back.host.leader() == Some(1));
    back.act(HostDeed::Wake)?;
    for _ in 0..6 {
        back.turn()?;
    }
    assert_eq!(rt; back.host.slot_out(), 4);
    assert_eq!(rt; back.host.node().object().object().value, 3);
    Ok(())
}

#[test]
fn a_snapshot_is_not_older_than_the_disk(rt: HostRuntime) -> Result<(), Fail> {
    let mut host = Alone::new(rt.alloc())?;
    host.write_three()?;
    host.stored.forget(3);
    let slot = Slot::new(2).ok_or("no slot")?;
    let object = written(rt.alloc(), 1)?;
    match Host::come_back(rt.alloc(), one_member()?, 1, host.stored, slot, object, 100) {
        Err(HostFault::SnapshotTooOld) => Ok(()),
        _ => Err("it comes back with a snapshot that is too old".into()),
    }
}

#[test]
fn an_account_keeps_what_is_written(rt: HostRuntime) -> Result<(), Fail> {
    let mut host = Alone::new(rt.alloc())?;
    host.write_three()?;
    let written = host.account.written();
    // a P1a, and three P2a
    assert_eq!(rt; written, 4);
    assert!(rt; host.account.keep(written + 1).is_none());
    assert!(rt; host.account.keep(written - 1).is_none());
    assert_eq!(rt; host.account.kept(), written);
    Ok(())
}

#[test]
fn a_snapshot_is_taken_over_by_who_is_behind(rt: HostRuntime) -> Result<(), Fail> {
    let alloc = rt.alloc();
    let mut host = Alone::new(alloc)?;
    let slot = Slot::new(4).ok_or("no slot")?;
    assert!(rt; host.host.catch_up(slot, written(alloc, 3)?)? == CatchUp::Done);
    assert!(rt; host.host.slot_out() == 4 && host.host.base() == 4);
    assert_eq!(rt; host.host.events(), 6);
    let before = Slot::new(3).ok_or("no slot")?;
    assert!(rt; host.host.catch_up(before, written(alloc, 2)?)? == CatchUp::Behind);
    Ok(())
}
