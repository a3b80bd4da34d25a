//! How often each kind of event happened.
use std::test::Fail;

/// What may happen in a course.
#[derive(Clone, Copy, Debug, PartialEq, Eq)]
pub enum Kind {
    Asked,
    AskedAgain,
    Woken,
    Nudged,
    Proposed,
    Performed,
    Answered,
    Received,
    LeftAside,
    Forgotten,
    Illegible,
    Astray,
    Lost,
    LostAtHost,
    CutOff,
    Repeated,
    Late,
    Written,
    Synced,
    StaleWitness,
    Forgot,
    CaughtUp,
    Behind,
    Awaited,
    BegunAnew,
    Rewritten,
    Crashed,
    Blackout,
    LostRecords,
    TornRecords,
    CameBack,
    FellAgain,
    WasAway,
    Weighted,
    SettledBySnapshot,
}

/// Every kind.
const KINDS: [Kind; 35] = [
    Kind::Asked,
    Kind::AskedAgain,
    Kind::Woken,
    Kind::Nudged,
    Kind::Proposed,
    Kind::Performed,
    Kind::Answered,
    Kind::Received,
    Kind::LeftAside,
    Kind::Forgotten,
    Kind::Illegible,
    Kind::Astray,
    Kind::Lost,
    Kind::LostAtHost,
    Kind::CutOff,
    Kind::Repeated,
    Kind::Late,
    Kind::Written,
    Kind::Synced,
    Kind::StaleWitness,
    Kind::Forgot,
    Kind::CaughtUp,
    Kind::Behind,
    Kind::Awaited,
    Kind::BegunAnew,
    Kind::Rewritten,
    Kind::Crashed,
    Kind::Blackout,
    Kind::LostRecords,
    Kind::TornRecords,
    Kind::CameBack,
    Kind::FellAgain,
    Kind::WasAway,
    Kind::Weighted,
    Kind::SettledBySnapshot,
];

/// How often each kind happened.
#[derive(Clone, Copy, Debug)]
pub struct Counts {
    by_kind: [u64; 35],
}

impl Counts {
    pub fn new() -> Counts {
        Counts { by_kind: [0; 35] }
    }

    /// It happened once more.
    pub fn note(&mut self, kind: Kind) {
        self.by_kind[kind as usize] += 1;
    }

    /// With what happened elsewhere.
    pub fn add(&mut self, others: &Counts) {
        for place in 0..self.by_kind.len() {
            self.by_kind[place] += others.by_kind[place];
        }
    }

    /// Prints how often each kind happened, and fails where one never did.
    pub fn tell(&self, rt: &HostRuntime) -> Result<(), Fail> {
        for kind in KINDS {
            println!(rt; "{kind:?} {}", self.by_kind[kind as usize])?;
        }
        for kind in KINDS {
            if self.by_kind[kind as usize] == 0 {
                return Err(Fail::new(format_args!("{kind:?} never happened")));
            }
        }
        Ok(())
    }
}
