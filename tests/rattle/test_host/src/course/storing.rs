//! What hosts store, on which they vote, and what they forget.
use super::Course;
use crate::draws::Draws;
use crate::kinds::Kind;
use std::test::Fail;

/// A journal writes so many records at once, at most.
const MOST_RECORDS: usize = 24;

impl Course {
    /// A host's journal writes some records of what was put aside.
    pub(super) fn write(&mut self, place: usize, draws: &mut Draws) -> Result<(), Fail> {
        let seat = &mut self.seats[place];
        let Some(process) = &mut seat.process else {
            return Ok(());
        };
        if process.write(1 + draws.place(MOST_RECORDS), &mut seat.disk)? > 0 {
            self.counts.note(Kind::Written);
        }
        self.seats[place].count_events();
        Ok(())
    }

    /// A host's disk syncs some of what is written, and the host votes.
    pub(super) fn sync(&mut self, place: usize, draws: &mut Draws) -> Result<(), Fail> {
        let unsynced = self.seats[place].disk.unsynced();
        if draws.one_in(3) {
            return self.sync_some(place, draws.place(unsynced + 1));
        }
        self.write(place, draws)?;
        self.sync_some(place, self.seats[place].disk.unsynced())?;
        self.fall(place, draws)
    }

    /// So many records more of a host are synced, and it votes.
    fn sync_some(&mut self, place: usize, count: usize) -> Result<(), Fail> {
        let seat = &mut self.seats[place];
        let Some(process) = &mut seat.process else {
            return Ok(());
        };
        let sent = process.sync(count, &mut seat.disk)?;
        if count > 0 {
            self.counts.note(Kind::Synced);
        }
        self.send(place, sent)
    }

    /// A host forgets what it performed, or some of it.
    pub(super) fn forget(&mut self, place: usize, draws: &mut Draws) -> Result<(), Fail> {
        let Some(process) = &mut self.seats[place].process else {
            return Ok(());
        };
        let host = &mut process.host;
        let base = host.base();
        let first = if draws.one_in(2) {
            base
        } else {
            host.slot_out()
        };
        host.forget(draws.between(first, host.slot_out()));
        if host.base() > base {
            self.counts.note(Kind::Forgot);
        }
        Ok(())
    }

    /// A host's disk begins anew with a base and a newer snapshot.
    pub(super) fn rewrite(&mut self, place: usize, draws: &mut Draws) -> Result<(), Fail> {
        let seat = &mut self.seats[place];
        if seat.process.is_none() {
            return Ok(());
        }
        let before = seat.disk.slot;
        seat.rewrite(draws)?;
        if seat.disk.slot > before {
            self.counts.note(Kind::Rewritten);
        }
        Ok(())
    }

    /// A host receives all that was put aside.
    pub(super) fn vote_on_all(&mut self, place: usize) -> Result<(), Fail> {
        let seat = &mut self.seats[place];
        if let Some(process) = &mut seat.process {
            process.write(usize::MAX, &mut seat.disk)?;
        }
        self.sync_some(place, self.seats[place].disk.unsynced())
    }
}
