//! Calls that may be refused for want of memory. Two that are alike make each course of them. Where a call of the first
//! one is refused, it has to be as the other one still is, and the call is made once more; then both have to be told the
//! same.
//!
//! Without input all courses are made. With a course's name and a number as input that one alone is made, and memory is
//! taken so many times between its preparations and its first call; with the name and `prepare` no call is made. By these
//! `tools/try-refusals` refuses the allocations of the calls, one after the other.
#![tactic(auto)]

mod asked;
mod course;
mod dumps;
mod halls;
mod objects;
mod outcome;
mod subject;
mod worlds;

use crate::asked::Asked;
use crate::course::{COURSES, Course};
use crate::outcome::Outcome;
use crate::subject::Then;
use std::alloc::Global;
use std::io::Read;
use std::process::ExitCode;

fn main(rt: HostRuntime) -> ExitCode {
    let mut input = [0; 64];
    let count = rt.stdin().read(&mut input).unwrap_or(0);
    let made = match Asked::from_input(input.get(..count).unwrap_or(&[])) {
        Some(Asked::All) => make_all(&rt),
        Some(Asked::One(course, then)) => make(&rt, course, then),
        None => None,
    };
    match made {
        Some(()) => ExitCode::SUCCESS,
        None => ExitCode::FAILURE,
    }
}

// Makes all courses, and tells how they went. There is nothing to tell where one went wrong.
fn make_all<R: AllocGlobal + Print>(rt: &R) -> Option<()> {
    for course in COURSES {
        make(rt, course, Then::Call(0))?;
    }
    Some(())
}

// Makes a course, and tells how it went.
fn make<R: AllocGlobal + Print>(rt: &R, course: Course, then: Then) -> Option<()> {
    let outcome = outcome_of(rt.alloc(), course, then)?;
    if outcome == Outcome::Prepared {
        return Some(());
    }
    println!(rt; "{}: {outcome}", course.name()).ok()?;
    outcome.is_right().then_some(())
}

// How a course goes; there is none where it can't be prepared.
fn outcome_of(alloc: Global, course: Course, then: Then) -> Option<Outcome> {
    match course {
        Course::Queue => objects::queue(alloc, then),
        Course::PlainQueue => objects::plain_queue(alloc, then),
        Course::Register => objects::register(alloc, then),
        Course::Filter => objects::filter(alloc, then),
        Course::Replica => objects::replica(alloc, then),
        Course::World => worlds::lost_leader(alloc, then),
        Course::Kick => worlds::kick(alloc, then),
        Course::Hall => halls::one_put(alloc, then),
    }
}
