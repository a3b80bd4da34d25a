//! What goes wrong: letters, processes and links.
use super::Course;
use crate::draws::Draws;
use crate::kinds::Kind;
use host::{HostDeed, Receipt};
use std::test::Fail;

impl Course {
    /// A letter is lost, comes again, or comes late.
    pub(super) fn disturb(&mut self, draws: &mut Draws) -> Result<(), Fail> {
        match draws.below(3) {
            0 => self.lose(draws),
            1 => self.repeat(draws),
            _ => self.find(draws),
        }
    }

    /// A letter is lost, unless a host sent it to itself.
    fn lose(&mut self, draws: &mut Draws) -> Result<(), Fail> {
        let Some(envelope) = self.post.take(draws) else {
            return Ok(());
        };
        if envelope.letter().from == envelope.letter().to {
            return self.post.send(envelope);
        }
        self.counts.note(Kind::Lost);
        self.post.lose(envelope, draws)
    }

    /// A letter will come once more.
    fn repeat(&mut self, draws: &mut Draws) -> Result<(), Fail> {
        match self.post.copy(draws)? {
            None => Ok(()),
            Some(envelope) => {
                self.counts.note(Kind::Repeated);
                self.post.send(envelope)
            }
        }
    }

    /// A letter that was lost comes late.
    fn find(&mut self, draws: &mut Draws) -> Result<(), Fail> {
        match self.post.find(draws) {
            None => Ok(()),
            Some(envelope) => {
                self.counts.note(Kind::Late);
                self.carry(envelope, draws)
            }
        }
    }

    /// A letter for another node comes to a host, which does nothing.
    pub(super) fn lead_astray(&mut self, place: usize, draws: &mut Draws) -> Result<(), Fail> {
        let Some(envelope) = self.post.copy(draws)? else {
            return Ok(());
        };
        let Some(process) = &mut self.seats[place].process else {
            return Ok(());
        };
        if usize::from(envelope.letter().to - 1) == place {
            return Ok(());
        }
        let events = process.host.events();
        let (receipt, sent) = process.receive(envelope)?;
        if receipt != Receipt::Astray || process.host.events() != events {
            return self.fail("a letter for another node is received");
        }
        self.counts.note(Kind::Astray);
        self.send(place, sent)
    }

    /// One process ends, or many, a host is cut off, or an account of an earlier boot speaks. Where there are few hosts
    /// it mostly is none of them.
    pub(super) fn mishap(&mut self, draws: &mut Draws) -> Result<(), Fail> {
        let place = draws.place(self.seats.len().max(4));
        if place >= self.seats.len() {
            return Ok(());
        }
        match draws.below(12) {
            0..6 => self.crash(place, draws),
            6 => self.black_out(draws),
            7..10 => {
                self.seats[place].joined = self.time + draws.between(20, 600);
                Ok(())
            }
            _ => self.speak_late(place),
        }
    }

    /// A process ends at times that has just voted.
    pub(super) fn fall(&mut self, place: usize, draws: &mut Draws) -> Result<(), Fail> {
        if draws.place(100) >= self.seats.len() + 2 {
            return Ok(());
        }
        self.crash(place, draws)
    }

    /// Three of four processes end at once.
    fn black_out(&mut self, draws: &mut Draws) -> Result<(), Fail> {
        self.counts.note(Kind::Blackout);
        for place in 0..self.seats.len() {
            if draws.below(4) > 0 {
                self.crash(place, draws)?;
            }
        }
        Ok(())
    }

    /// A process ends, mostly for a short time.
    fn crash(&mut self, place: usize, draws: &mut Draws) -> Result<(), Fail> {
        if self.seats[place].process.is_none() {
            return Ok(());
        }
        self.end_process(place, draws)?;
        let away = if draws.one_in(8) {
            self.counts.note(Kind::WasAway);
            draws.between(200, 800)
        } else {
            draws.between(1, 40)
        };
        self.seats[place].back = self.time + away;
        Ok(())
    }

    /// A process ends.
    pub(super) fn end_process(&mut self, place: usize, draws: &mut Draws) -> Result<(), Fail> {
        self.counts.note(Kind::Crashed);
        let (there, lost) = self.seats[place].crash(draws)?;
        if lost > 0 {
            self.counts.note(Kind::LostRecords);
        }
        if there > 0 {
            self.counts.note(Kind::TornRecords);
        }
        Ok(())
    }

    /// The processes run again whose time it is, and the links are there again. A host that was away would often lead.
    pub(super) fn bring_back(&mut self, draws: &mut Draws) -> Result<(), Fail> {
        for place in 0..self.seats.len() {
            let seat = &self.seats[place];
            let comes_back = seat.process.is_none() && seat.back <= self.time;
            let joins = seat.joined == self.time;
            if comes_back {
                self.come_back(place, draws.one_in(8))?;
            }
            if (comes_back || joins) && draws.one_in(2) {
                self.act(place, HostDeed::Wake)?;
            }
        }
        Ok(())
    }

    /// A process runs again, unless it ends before its boot is stored.
    pub(super) fn come_back(&mut self, place: usize, ends_at_once: bool) -> Result<(), Fail> {
        let kind = if ends_at_once {
            Kind::FellAgain
        } else {
            Kind::CameBack
        };
        self.counts.note(kind);
        self.seats[place].come_back(&self.order, ends_at_once)?;
        self.seats[place].count_events();
        Ok(())
    }

    /// A host is told what is kept by an account of an earlier boot, on which it votes nothing.
    fn speak_late(&mut self, place: usize) -> Result<(), Fail> {
        let seat = &mut self.seats[place];
        let Some(process) = &mut seat.process else {
            return Ok(());
        };
        let Some(kept) = seat.stale else {
            return Ok(());
        };
        let voted = process.host.voted();
        let sent = process.vote(kept)?;
        if process.host.voted() != voted {
            return self.fail("a host votes on what another boot kept");
        }
        self.counts.note(Kind::StaleWitness);
        self.send(place, sent)
    }

    /// Whether no letter goes to it or comes from it.
    pub(super) fn is_cut_off(&self, place: usize) -> bool {
        self.time < self.seats[place].joined
    }
}
