//! How a course ends: all hosts are there, and come to the same slot.
use super::Course;
use crate::draws::Draws;
use crate::kinds::Kind;
use host::HostDeed;
use object::Key;
use std::test::Fail;

/// So many rounds there are at most.
const ROUNDS: u32 = 400;

/// A host performs so many slots in a round at most.
const PERFORMED: u32 = 64;

impl Course {
    /// All processes run, all links are there, what was lost comes after all, and nothing more is lost. A host whose
    /// base is the highest, so that it can read what all others report, is asked for a last command. It is answered, and
    /// all hosts come to the same slot, with the same object.
    pub fn settle(&mut self, draws: &mut Draws) -> Result<(), Fail> {
        self.join_all()?;
        self.post.find_all()?;
        let leader = self.foremost();
        let key = self.clients.next(0);
        self.request(leader, key)?;
        for _ in 0..ROUNDS {
            if self.is_settled(key) {
                return self.check_objects();
            }
            self.round(leader, draws)?;
        }
        self.fail("the hosts don't settle")
    }

    /// All processes run, and no host is cut off.
    fn join_all(&mut self) -> Result<(), Fail> {
        for place in 0..self.seats.len() {
            self.seats[place].joined = 0;
            if self.seats[place].process.is_none() {
                self.come_back(place, false)?;
            }
        }
        Ok(())
    }

    /// The place of a host whose base is the highest.
    fn foremost(&self) -> usize {
        let mut first = 0;
        for place in 0..self.seats.len() {
            if self.seats[place].base() > self.seats[first].base() {
                first = place;
            }
        }
        first
    }

    /// Whether the last command was answered, and all hosts are at the same slot.
    fn is_settled(&self, key: Key) -> bool {
        let slot = self.seats[0].slot_out();
        self.clients.has_answer(key) && self.seats.iter().all(|seat| seat.slot_out() == slot)
    }

    fn check_objects(&self) -> Result<(), Fail> {
        for place in 0..self.seats.len() {
            self.check_object(place)?;
        }
        Ok(())
    }

    /// One host leads, all that is under way comes, all vote and perform, and who is behind catches up.
    fn round(&mut self, leader: usize, draws: &mut Draws) -> Result<(), Fail> {
        self.time += 1;
        self.act(leader, HostDeed::Wake)?;
        self.act(leader, HostDeed::Nudge)?;
        self.act(leader, HostDeed::Propose)?;
        for envelope in self.post.take_all() {
            let to = usize::from(envelope.letter().to - 1);
            self.receive(to, envelope)?;
        }
        for place in 0..self.seats.len() {
            self.vote_on_all(place)?;
            self.perform(place, PERFORMED)?;
            self.lift(place, leader, draws)?;
        }
        Ok(())
    }

    /// A host that is behind another one asks for what is decided, and takes over a snapshot where that has forgotten
    /// it.
    fn lift(&mut self, place: usize, leader: usize, draws: &mut Draws) -> Result<(), Fail> {
        let (slot, base) = (self.seats[place].slot_out(), self.seats[leader].base());
        if slot >= self.seats[leader].slot_out() {
            return Ok(());
        }
        if slot >= base {
            return self.act(place, HostDeed::Nudge);
        }
        self.counts.note(Kind::SettledBySnapshot);
        self.catch_up(place, base.unwrap_or(0), draws)?;
        Ok(())
    }
}
