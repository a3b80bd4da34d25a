//! Hosts at a register, each with a disk, what is on its way between them, and their clients.
mod mishaps;
mod settling;
mod snapshots;
mod storing;

use crate::clients::{Clients, command};
use crate::draws::Draws;
use crate::events::{Event, Frequencies};
use crate::kinds::{Counts, Kind};
use crate::order::Order;
use crate::post::{Post, Sent};
use crate::process::Outgoing;
use crate::seat::Seat;
use ballot::{Members, Slot};
use host::{HostDeed, Receipt};
use node::Outcome;
use object::{Answer, Key, RegisterOp, RegisterReply};
use std::alloc::Global;
use std::test::Fail;

/// A host proposes so many commands in a turn, at most.
const PROPOSED: u32 = 4;

/// It performs so many.
const PERFORMED: u32 = 16;

/// The hosts of a cluster, and what was seen of them.
#[derive(Drop)]
pub struct Course {
    alloc: Global,
    seed: u64,
    time: u64,
    frequencies: Frequencies,
    seats: Vec<Seat>,
    post: Post,
    clients: Clients,
    order: Order,
    pub counts: Counts,
}

/// So many members: of equal weight, or as the weights are drawn.
fn members_of(count: usize, draws: &mut Draws) -> Result<Members, Fail> {
    let mut weights = [1; 7];
    if draws.one_in(2) {
        for place in 0..count {
            weights[place] = 1 + draws.below(3);
        }
    }
    Ok(Members::weighted(&weights[..count]).ok_or("no members")?)
}

impl Course {
    pub fn new(alloc: Global, count: u8, seed: u64, draws: &mut Draws) -> Result<Course, Fail> {
        let members = members_of(usize::from(count), draws)?;
        let mut seats = Vec::new(alloc);
        for before in 0..count {
            seats.push(Seat::new(alloc, members, before + 1)?)?;
        }
        let mut counts = Counts::new();
        if !members.is_unweighted() {
            counts.note(Kind::Weighted);
        }
        Ok(Course {
            alloc,
            seed,
            time: 0,
            frequencies: Frequencies::draw(draws),
            seats,
            post: Post::new(alloc),
            clients: Clients::new(alloc),
            order: Order::new(alloc)?,
            counts,
        })
    }

    /// Fails with what is wrong, and for which seed.
    fn fail(&self, why: &'static str) -> Result<(), Fail> {
        let hosts = self.seats.len();
        let (seed, time) = (self.seed, self.time);
        Err(Fail::new(format_args!("{why}: {hosts} hosts, seed {seed}, event {time}")))
    }

    /// The next event happens.
    pub fn step(&mut self, draws: &mut Draws) -> Result<(), Fail> {
        self.time += 1;
        self.bring_back(draws)?;
        let place = draws.place(self.seats.len());
        match self.frequencies.next(draws) {
            Event::Ask => self.ask(place, draws),
            Event::Wake => self.wake(place, draws),
            Event::Nudge => self.act(place, HostDeed::Nudge),
            Event::Propose => self.act(place, HostDeed::Propose),
            Event::Perform => self.perform(place, 1 + draws.below(4)),
            Event::Deliver => self.deliver(draws),
            Event::Write => self.write(place, draws),
            Event::Sync => self.sync(place, draws),
            Event::TakeTurns => self.take_turns(draws),
            Event::Forget => self.forget(place, draws),
            Event::Rewrite => self.rewrite(place, draws),
            Event::HandOn => self.hand_on(place, draws),
            Event::Disturb => self.disturb(draws),
            Event::LeadAstray => self.lead_astray(place, draws),
            Event::Mishap => self.mishap(draws),
        }
    }

    /// A host is asked for a command, or hands it on to the one that leads, as far as it knows.
    fn ask(&mut self, place: usize, draws: &mut Draws) -> Result<(), Fail> {
        let key = self.clients.draw(draws);
        match self.seats[place].leader() {
            Some(leader) if draws.below(3) > 0 => self.request(leader, key),
            _ => self.request(place, key),
        }
    }

    /// A host is asked for the command of this key.
    fn request(&mut self, place: usize, key: Key) -> Result<(), Fail> {
        let kind = if self.clients.ask(key, self.time)? {
            Kind::AskedAgain
        } else {
            Kind::Asked
        };
        self.counts.note(kind);
        self.act(place, HostDeed::Request(command(key)?))
    }

    /// A host would lead, where nobody leads as far as it can tell, and at times where somebody does.
    fn wake(&mut self, place: usize, draws: &mut Draws) -> Result<(), Fail> {
        if self.is_led(place) && draws.below(8) > 0 {
            return Ok(());
        }
        self.act(place, HostDeed::Wake)
    }

    /// Whether the host that it takes for the leader leads, and can be reached.
    fn is_led(&self, place: usize) -> bool {
        match self.seats[place].leader() {
            None => false,
            Some(leader) => !self.is_cut_off(leader) && self.seats[leader].is_active(),
        }
    }

    /// Each host takes its turn, or doesn't.
    fn take_turns(&mut self, draws: &mut Draws) -> Result<(), Fail> {
        for place in 0..self.seats.len() {
            if draws.one_in(2) {
                self.turn(place)?;
            }
        }
        Ok(())
    }

    /// A host proposes what it is asked for, if it leads, votes on all that came, and performs what it knows.
    fn turn(&mut self, place: usize) -> Result<(), Fail> {
        if self.seats[place].leader() == Some(place) {
            for _ in 0..PROPOSED {
                self.act(place, HostDeed::Propose)?;
            }
        }
        self.vote_on_all(place)?;
        self.perform(place, PERFORMED)
    }

    /// A host performs so many commands, if it knows as many.
    fn perform(&mut self, place: usize, count: u32) -> Result<(), Fail> {
        for _ in 0..count {
            self.act(place, HostDeed::Perform)?;
        }
        Ok(())
    }

    /// A host does this by itself, if its process runs.
    fn act(&mut self, place: usize, deed: HostDeed<RegisterOp>) -> Result<(), Fail> {
        let kind = kind_of(&deed);
        let Some(process) = &mut self.seats[place].process else {
            return Ok(());
        };
        let mut answers = Vec::new(self.alloc);
        let (outcome, sent) = process.act(deed, &mut answers)?;
        match outcome {
            Outcome::Idle => {}
            Outcome::Done => self.note(kind),
            Outcome::Performed(performed) => {
                self.check_performed(place, performed.slot, performed.key, &answers)?;
            }
        }
        self.send(place, sent)
    }

    fn note(&mut self, kind: Option<Kind>) {
        if let Some(kind) = kind {
            self.counts.note(kind);
        }
    }

    /// A host performed its next command, and answered as the plain register does.
    fn check_performed(
        &mut self,
        place: usize,
        slot: Slot,
        key: Key,
        answers: &Vec<Answer<RegisterReply>>,
    ) -> Result<(), Fail> {
        self.counts.note(Kind::Performed);
        let seat = &mut self.seats[place];
        if seat.next != slot.number() {
            return self.fail("a slot is left out");
        }
        seat.next += 1;
        if let Some(why) = self.order.perform(slot, key, answers.as_slice()) {
            return self.fail(why);
        }
        for answer in answers {
            self.counts.note(Kind::Answered);
            self.clients.answer(answer.to, self.time)?;
        }
        Ok(())
    }

    /// What a host sends goes on its way.
    fn send(&mut self, place: usize, sent: Outgoing) -> Result<(), Fail> {
        self.seats[place].count_events();
        for envelope in sent.into_envelopes()? {
            if !self.order.hear(&envelope.letter().body)? {
                return self.fail("a slot has two decisions");
            }
            self.post.send(envelope)?;
        }
        Ok(())
    }

    /// Some of the letters come, whichever are drawn.
    fn deliver(&mut self, draws: &mut Draws) -> Result<(), Fail> {
        for _ in 0..1 + draws.place(self.post.len() + 1) {
            if let Some(envelope) = self.post.take(draws) {
                self.carry(envelope, draws)?;
            }
        }
        Ok(())
    }

    /// A letter comes, if nothing lies between its sender and a process that runs. Else it is lost, or waits.
    fn carry(&mut self, envelope: Sent, draws: &mut Draws) -> Result<(), Fail> {
        let from = usize::from(envelope.letter().from - 1);
        let to = usize::from(envelope.letter().to - 1);
        if from != to && (self.is_cut_off(from) || self.is_cut_off(to)) {
            self.counts.note(Kind::CutOff);
            return self.post.lose(envelope, draws);
        }
        if self.seats[to].process.is_some() {
            return self.receive(to, envelope);
        }
        self.counts.note(Kind::LostAtHost);
        if draws.one_in(2) {
            return self.post.lose(envelope, draws);
        }
        self.post.send(envelope)
    }

    /// A letter comes to a host.
    fn receive(&mut self, place: usize, envelope: Sent) -> Result<(), Fail> {
        let Some(process) = &mut self.seats[place].process else {
            return Ok(());
        };
        let (receipt, sent) = process.receive(envelope)?;
        match receipt {
            Receipt::Received => self.counts.note(Kind::Received),
            Receipt::Aside => self.counts.note(Kind::LeftAside),
            Receipt::Forgotten => self.counts.note(Kind::Forgotten),
            Receipt::Illegible => self.counts.note(Kind::Illegible),
            Receipt::Astray => return self.fail("a letter is for another node"),
            Receipt::Unfit => return self.fail("a letter is unfit"),
        }
        self.send(place, sent)
    }

    /// What was seen of the commands is of one order: fails where it isn't.
    pub fn check(&self) -> Result<(), Fail> {
        for seat in &self.seats {
            if seat.slot_out().is_some_and(|slot| slot != seat.next) {
                return self.fail("a host is at another slot");
            }
        }
        let order = self.order.effective()?;
        match self.clients.fault(order.as_slice()) {
            Some(why) => self.fail(why),
            None => Ok(()),
        }
    }
}

/// The kind of this deed, where it is counted once it is done.
fn kind_of(deed: &HostDeed<RegisterOp>) -> Option<Kind> {
    match deed {
        HostDeed::Wake => Some(Kind::Woken),
        HostDeed::Nudge => Some(Kind::Nudged),
        HostDeed::Propose => Some(Kind::Proposed),
        _ => None,
    }
}
