//! A seat of the cluster: a process while it runs, and its disk.
use crate::disk::Disk;
use crate::draws::Draws;
use crate::order::Order;
use crate::process::Process;
use ballot::{Members, Slot};
use host::{Host, Kept};
use std::alloc::Global;
use std::test::Fail;

/// A node of the cluster, whether its process runs or not.
#[derive(Drop)]
pub struct Seat {
    alloc: Global,
    members: Members,
    number: u8,
    pub process: Option<Process>,
    pub disk: Disk,
    /// What an account of an earlier boot said.
    pub stale: Option<Kept>,
    /// The slot that its replica performs next, by what was seen.
    pub next: u64,
    /// Its process runs again at this time.
    pub back: u64,
    /// No letter goes to it or comes from it before this time.
    pub joined: u64,
}

impl Seat {
    /// Its process runs, and nothing happened to it yet.
    pub fn new(alloc: Global, members: Members, number: u8) -> Result<Seat, Fail> {
        let (host, account) = Host::new(alloc, members, number)?;
        Ok(Seat {
            alloc,
            members,
            number,
            process: Some(Process::new(alloc, host, account)),
            disk: Disk::new(alloc),
            stale: None,
            next: 1,
            back: 0,
            joined: 0,
        })
    }

    /// The slot that its replica performs next, where its process runs.
    pub fn slot_out(&self) -> Option<u64> {
        Some(self.process.as_ref()?.host.slot_out())
    }

    /// The base of its host, where its process runs.
    pub fn base(&self) -> Option<u64> {
        Some(self.process.as_ref()?.host.base())
    }

    /// The place of the host that leads, as far as its host knows, where its process runs.
    pub fn leader(&self) -> Option<usize> {
        Some(usize::from(self.process.as_ref()?.host.leader()? - 1))
    }

    /// Whether its process runs, and leads.
    pub fn is_active(&self) -> bool {
        match &self.process {
            None => false,
            Some(process) => process.host.node().is_active(),
        }
    }

    /// The disk counts the events of its host.
    pub fn count_events(&mut self) {
        if let Some(process) = &self.process {
            self.disk.reserve(process.host.events());
        }
    }

    /// Its process ends, at times amid a write: of what isn't synced a drawn part is there. It answers how many records
    /// are there, and how many are lost.
    pub fn crash(&mut self, draws: &mut Draws) -> Result<(usize, usize), Fail> {
        let Some(mut process) = self.process.take() else {
            return Ok((0, 0));
        };
        if draws.one_in(2) {
            process.write(usize::MAX, &mut self.disk)?;
            self.disk.reserve(process.host.events());
        }
        self.stale = process.end();
        let unsynced = self.disk.unsynced();
        let there = draws.place(unsynced + 1);
        self.disk.cut(there);
        Ok((there, unsynced - there))
    }

    /// Its process runs again, unless it ends before its boot is stored.
    pub fn come_back(&mut self, order: &Order, ends_at_once: bool) -> Result<(), Fail> {
        let slot = Slot::new(self.disk.slot).ok_or("no slot")?;
        let (host, account) = Host::come_back(
            self.alloc,
            self.members,
            self.number,
            self.disk.stored()?,
            slot,
            order.object_at(self.disk.slot)?,
            self.disk.events(),
        )?;
        if ends_at_once {
            return Ok(());
        }
        self.disk.begin(host.node().boot())?;
        self.next = self.disk.slot;
        self.process = Some(Process::new(self.alloc, host, account));
        Ok(())
    }

    /// Its disk begins anew with a base and a snapshot, as they are drawn of those that it may have.
    pub fn rewrite(&mut self, draws: &mut Draws) -> Result<(), Fail> {
        let Some(process) = &self.process else {
            return Ok(());
        };
        let first = self.disk.stored()?.base();
        let base = draws.between(first, first.max(process.host.base()));
        let slot = draws.between(base.max(self.disk.slot), process.host.slot_out());
        self.disk.rewrite(base, slot)
    }
}
