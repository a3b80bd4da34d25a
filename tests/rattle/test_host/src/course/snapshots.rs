//! Snapshots, which hosts hand on to those that are behind.
use super::Course;
use crate::draws::Draws;
use crate::kinds::Kind;
use crate::order::is_same;
use ballot::Slot;
use host::CatchUp;
use std::test::Fail;

impl Course {
    /// A host is handed a snapshot of another one, or an older one. What asks for a vote before it is voted first.
    pub(super) fn hand_on(&mut self, place: usize, draws: &mut Draws) -> Result<(), Fail> {
        let from = draws.place(self.seats.len());
        let Some(slot) = self.seats[from].slot_out() else {
            return Ok(());
        };
        self.check_object(from)?;
        let slot = if draws.one_in(8) {
            draws.between(1, self.order.reached())
        } else if Some(slot) > self.seats[place].slot_out() {
            slot
        } else {
            return Ok(());
        };
        if self.catch_up(place, slot, draws)? != Some(CatchUp::Awaited) {
            return Ok(());
        }
        self.vote_on_all(place)?;
        match self.catch_up(place, slot, draws)? {
            Some(CatchUp::Awaited) => self.fail("all is voted, and a host still awaits it"),
            _ => Ok(()),
        }
    }

    /// A host has the object that has obeyed what is decided before its slot.
    pub(super) fn check_object(&self, place: usize) -> Result<(), Fail> {
        let Some(process) = &self.seats[place].process else {
            return Ok(());
        };
        let object = self.order.object_at(process.host.slot_out())?;
        if !is_same(process.host.node().object(), &object) {
            return self.fail("a host has another object");
        }
        Ok(())
    }

    /// A host is handed a snapshot of this slot, if its process runs.
    pub(super) fn catch_up(
        &mut self,
        place: usize,
        slot: u64,
        draws: &mut Draws,
    ) -> Result<Option<CatchUp>, Fail> {
        let Some(process) = &mut self.seats[place].process else {
            return Ok(None);
        };
        let before = process.host.slot_out();
        let object = self.order.object_at(slot)?;
        let caught = process
            .host
            .catch_up(Slot::new(slot).ok_or("no slot")?, object)?;
        if (slot < before) != (caught == CatchUp::Behind) {
            self.fail("a host misses how far it came")?;
        }
        match caught {
            CatchUp::Done => {
                if before < slot {
                    self.counts.note(Kind::CaughtUp);
                }
                self.go_on(place, slot, draws)?;
            }
            CatchUp::Behind => self.counts.note(Kind::Behind),
            CatchUp::Awaited => self.counts.note(Kind::Awaited),
            CatchUp::Proposed => self.begin_anew(place, slot, draws)?,
        }
        Ok(Some(caught))
    }

    /// A host has caught up. Its disk may take the snapshot, too.
    fn go_on(&mut self, place: usize, slot: u64, draws: &mut Draws) -> Result<(), Fail> {
        let seat = &mut self.seats[place];
        seat.next = slot;
        seat.count_events();
        if draws.one_in(2) {
            seat.disk.slot = slot;
        }
        if seat.slot_out() != Some(slot) || seat.base() != Some(slot) {
            return self.fail("a host has caught up with another slot");
        }
        Ok(())
    }

    /// A host can't go on with a snapshot: its process ends, and begins anew with it.
    fn begin_anew(&mut self, place: usize, slot: u64, draws: &mut Draws) -> Result<(), Fail> {
        self.counts.note(Kind::BegunAnew);
        self.end_process(place, draws)?;
        self.seats[place].disk.slot = slot;
        self.come_back(place, false)
    }
}
