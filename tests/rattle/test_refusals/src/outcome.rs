//! How a course went.
use std::fmt;
use std::fmt::Display;

/// How a course went.
#[derive(Clone, Copy, Debug, PartialEq, Eq)]
pub enum Outcome {
    /// It was prepared, and no call was made.
    Prepared,
    /// So many calls were made, and none was refused.
    Made(usize),
    /// The call at this place, from 0, was refused, changed nothing, and was made once more.
    Repeated(usize),
    /// The call at this place was told something else, or changed something though it was refused.
    Wrong(usize),
}

impl Outcome {
    pub fn is_right(self) -> bool {
        !matches!(self, Outcome::Wrong(_))
    }

    /// The same, if that holds; else the calls went wrong after so many.
    pub fn if_so(self, holds: bool, calls: usize) -> Outcome {
        if holds { self } else { Outcome::Wrong(calls) }
    }
}

impl Display for Outcome {
    fn fmt<W: fmt::Write>(&self, f: &mut fmt::Formatter<W>) -> fmt::Result {
        match self {
            Outcome::Prepared => f.write_str("prepared"),
            Outcome::Made(calls) => write!(f, "{calls} calls, none refused"),
            Outcome::Repeated(place) => write!(f, "call {place} refused, and made once more"),
            Outcome::Wrong(place) => write!(f, "wrong at call {place}"),
        }
    }
}
