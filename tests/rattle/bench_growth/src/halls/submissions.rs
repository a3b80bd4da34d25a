//! Many submissions, of which few take effect.

use super::calls::{decide_next, deliver_all};
use super::dumps::count_dump;
use ballot::Members;
use bean_queue::Queue;
use bean_words::Op;
use hall::Hall;
use object::Act;

/// So many commands take effect.
const PERFORMED: u64 = 1_000;

/// Of so many submissions one in eleven is that of a session, each of its own, and the others are seconds of the clock.
const EACH: u64 = 11;

/// So many commands are submitted at node 1, and then a thousand of them take effect. It is told how many submissions,
/// answers and places of the order the dump has.
pub fn submit_many(rt: &HostRuntime, members: Members, submissions: u64) -> Option<()> {
    let mut hall = Hall::new(rt.alloc(), members).ok()?;
    submit_all(&mut hall, submissions)?;
    tell(rt, &hall)
}

fn submit_all(hall: &mut Hall<Queue>, submissions: u64) -> Option<()> {
    let sessions = submissions / EACH;
    submit_of_sessions(hall, sessions)?;
    submit_seconds(hall, submissions.saturating_sub(sessions))?;
    perform_few(hall)
}

fn tell(rt: &HostRuntime, hall: &Hall<Queue>) -> Option<()> {
    let counts = count_dump(rt.alloc(), hall)?;
    println!(rt;
        "submitted {} {} {}",
        counts.submitted, counts.answers, counts.order
    )
    .ok()
}

// So many sessions ask which tube they use.
fn submit_of_sessions(hall: &mut Hall<Queue>, sessions: u64) -> Option<()> {
    for _ in 0..sessions {
        submit_of_new_session(hall)?;
    }
    Some(())
}

fn submit_of_new_session(hall: &mut Hall<Queue>) -> Option<()> {
    let mut ticket = hall.open_session().ok()?;
    hall.submit(&mut ticket, Act::Do(Op::ListTubeUsed), 1).ok()
}

// The clock shows so many seconds.
fn submit_seconds(hall: &mut Hall<Queue>, seconds: u64) -> Option<()> {
    for second in 1..=seconds {
        hall.tick(second, 1).ok()?;
    }
    Some(())
}

fn perform_few(hall: &mut Hall<Queue>) -> Option<()> {
    hall.wake(1).ok()?;
    deliver_all(hall)?;
    for _ in 0..PERFORMED {
        decide_next(hall)?;
    }
    Some(())
}
