//! Three hosts, of which the first leads and has all clients.

use crate::place::{Mail, Place};
use ballot::Members;
use host::HostDeed;
use host_clients::Clients;
use object::{Act, RegisterOp, RegisterReply};
use std::alloc::Global;
use std::mem::replace;
use std::time::CpuClock;

/// So many hosts there are.
pub const HOSTS: u8 = 3;

/// The hosts, the clients of the first, and how long each was busy.
#[derive(Drop)]
pub struct Hosts {
    alloc: Global,
    places: Vec<Place>,
    clients: Clients<RegisterOp, RegisterReply>,
    out: Mail,
    is_timed: bool,
    spent: Vec<u128>,
    pub answered: u64,
}

impl Hosts {
    /// The first one leads.
    pub fn new(rt: &HostRuntime, is_timed: bool) -> Option<Hosts> {
        let alloc: Global = rt.alloc();
        let members = Members::new(HOSTS)?;
        let mut clients = Clients::new(alloc, 1);
        clients.allow(u32::MAX);
        let mut hosts = Hosts {
            alloc,
            places: Vec::new(alloc),
            clients,
            out: Mail::new(alloc),
            is_timed,
            spent: Vec::new(alloc),
            answered: 0,
        };
        for before in 0..HOSTS {
            hosts
                .places
                .push(Place::new(alloc, members, before + 1)?)
                .ok()?;
            hosts.spent.push(0).ok()?;
        }
        let Hosts { places, out, .. } = &mut hosts;
        places.get_mut(0)?.act(HostDeed::Wake, out)?;
        hosts.settle(rt)?;
        if hosts.places.first()?.leads() {
            Some(hosts)
        } else {
            None
        }
    }

    /// A session of the first host.
    pub fn open_session(&mut self) -> Option<u32> {
        self.clients.open_session().ok()
    }

    /// A command of a session, for which the leader is asked.
    pub fn ask(&mut self, session: u32, act: Act<RegisterOp>) -> Option<()> {
        let command = self.clients.hand_in(session, act).ok()?;
        let Hosts { places, out, .. } = self;
        places.get_mut(0)?.act(HostDeed::Request(command), out)?;
        Some(())
    }

    /// How long a host was busy, in microseconds.
    pub fn spent(&self, place: usize) -> Option<u128> {
        self.spent.get(place).copied()
    }

    /// All have turns until nothing is on its way, and the clients hear their answers.
    pub fn settle(&mut self, rt: &HostRuntime) -> Option<()> {
        for _ in 0..u64::MAX {
            for place in 0..self.places.len() {
                self.turn(rt, place)?;
            }
            self.deliver()?;
            if self.places.iter().all(|place| place.mail.is_empty()) {
                break;
            }
        }
        self.hear()
    }

    // Each letter comes to the host that it is for.
    fn deliver(&mut self) -> Option<()> {
        for _ in 0..self.out.len() {
            let envelope = self.out.pop_front()?;
            let to = usize::from(envelope.letter().to).checked_sub(1)?;
            self.places.get_mut(to)?.mail.push_back(envelope).ok()?;
        }
        Some(())
    }

    // A host has its turn.
    fn turn(&mut self, rt: &HostRuntime, place: usize) -> Option<()> {
        let before = self.clock(rt)?;
        let Hosts { places, out, .. } = self;
        places.get_mut(place)?.turn(out)?;
        let after = self.clock(rt)?;
        let spent = self.spent.get_mut(place)?;
        *spent = spent.checked_add(after.checked_sub(before)?)?;
        Some(())
    }

    // The processor time so far, in nanoseconds, or 0.
    fn clock(&self, rt: &HostRuntime) -> Option<u128> {
        if !self.is_timed {
            return Some(0);
        }
        Some(rt.process_cpu_time().ok()?.as_nanos())
    }

    // The clients hear what the first host answered, and sessions whose end took effect may be used again.
    fn hear(&mut self) -> Option<()> {
        for place in self.places.iter_mut().skip(1) {
            place.answers.clear();
            place.performed.clear();
        }
        let first = self.places.get_mut(0)?;
        for answer in replace(&mut first.answers, Vec::new(self.alloc)) {
            self.clients.hear(answer);
            self.answered = self.answered.checked_add(1)?;
        }
        for key in replace(&mut first.performed, Vec::new(self.alloc)) {
            self.clients.performed(key).ok()?;
        }
        Some(())
    }
}
