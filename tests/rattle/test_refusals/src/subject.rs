//! Two that make the same calls.
use crate::outcome::Outcome;
use std::alloc::{AllocError, Global};

/// Why a call didn't succeed.
#[derive(Clone, Copy, Debug, PartialEq, Eq)]
pub enum Refusal {
    OutOfMemory,
    /// Something else, or what it was told isn't what it has to be told.
    Other,
}

impl From<AllocError> for Refusal {
    fn from(_: AllocError) -> Refusal {
        Refusal::OutOfMemory
    }
}

/// What comes after the preparations.
#[derive(Clone, Copy, Debug, PartialEq, Eq)]
pub enum Then {
    /// Nothing.
    Stop,
    /// Memory is taken so many times, and then the calls are made.
    Call(usize),
}

impl Then {
    /// Takes the memory, and tells whether the calls are to be made.
    pub fn goes_on(self, alloc: Global) -> bool {
        match self {
            Then::Stop => false,
            Then::Call(count) => {
                take_memory(alloc, count);
                true
            }
        }
    }
}

// Takes memory so many times.
fn take_memory(alloc: Global, count: usize) {
    for _ in 0..count {
        let mut taken = Vec::new(alloc);
        let _ = taken.push(0_u8);
    }
}

/// What makes a course of calls.
pub trait Subject {
    /// What a call is told.
    type Told: PartialEq + Drop;

    /// Makes the call at this place.
    fn make(&mut self, place: usize) -> Result<Self::Told, Refusal>;

    /// Whether all that can be seen of both is the same.
    fn is_like(&mut self, other: &mut Self) -> Result<bool, AllocError>;
}

/// How one call went.
#[derive(Clone, Copy)]
enum Step {
    Once,
    /// It was refused, changed nothing, and was made once more.
    Twice,
    Wrong,
}

/// Lets both make so many calls, one after the other.
pub fn walk<S: Subject>(
    alloc: Global,
    tried: &mut S,
    other: &mut S,
    calls: usize,
    then: Then,
) -> Outcome {
    if !then.goes_on(alloc) {
        return Outcome::Prepared;
    }
    let mut outcome = Outcome::Made(calls);
    for place in 0..calls {
        match make_both(tried, other, place) {
            Step::Once => {}
            Step::Twice => outcome = Outcome::Repeated(place),
            Step::Wrong => return Outcome::Wrong(place),
        }
    }
    outcome.if_so(are_alike(tried, other), calls)
}

// Lets both make a call. Where the first is refused memory, it is as the other, and makes the call once more.
fn make_both<S: Subject>(tried: &mut S, other: &mut S, place: usize) -> Step {
    match tried.make(place) {
        Ok(told) => told_alike(told, other, place, Step::Once),
        Err(Refusal::OutOfMemory) if are_alike(tried, other) => match tried.make(place) {
            Ok(told) => told_alike(told, other, place, Step::Twice),
            Err(_) => Step::Wrong,
        },
        Err(_) => Step::Wrong,
    }
}

// The step, if the other is told the same; where it is refused memory, it makes the call once more.
fn told_alike<S: Subject>(told: S::Told, other: &mut S, place: usize, step: Step) -> Step {
    let theirs = match other.make(place) {
        Err(Refusal::OutOfMemory) => other.make(place),
        theirs => theirs,
    };
    match theirs {
        Ok(theirs) if theirs == told => step,
        _ => Step::Wrong,
    }
}

// Whether both are alike; where memory is refused, they are compared once more.
fn are_alike<S: Subject>(tried: &mut S, other: &mut S) -> bool {
    match tried.is_like(other) {
        Ok(alike) => alike,
        Err(AllocError) => tried.is_like(other) == Ok(true),
    }
}
