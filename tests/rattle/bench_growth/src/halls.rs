//! Halls of queues far past small numbers, and what commands cost one, for `bench/hall_growth`.
//!
//! Its words are a course: its name, how many nodes there are, and how many jobs, letters or submissions. It writes a line
//! after each part. `timed` tells the processor time, and is the only course that the bench takes.

mod calls;
mod dumps;
mod jobs;
mod letters;
mod submissions;

use ballot::Members;
use jobs::{dump_many_answers, handle, handle_and_dump};
use letters::fill_a_mail;
use std::str::SplitWhitespace;
use submissions::submit_many;

/// Takes one course.
pub fn measure(rt: &HostRuntime, mut words: SplitWhitespace<'_>) -> Option<()> {
    let course = words.next()?;
    let nodes: u8 = words.next()?.parse().ok()?;
    let count: u32 = words.next()?.parse().ok()?;
    go(rt, course, Members::new(nodes)?, u64::from(count))
}

fn go(rt: &HostRuntime, course: &str, members: Members, count: u64) -> Option<()> {
    match course {
        "timed" => handle(rt, members, count),
        "jobs" => handle_and_dump(rt, members, count),
        "answers" => dump_many_answers(rt, members, count),
        "letters" => fill_a_mail(rt, members, count),
        "submissions" => submit_many(rt, members, count),
        _ => None,
    }
}
