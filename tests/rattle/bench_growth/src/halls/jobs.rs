//! Jobs that are put, reserved and deleted, one after the other, by two sessions in turn.

use super::calls::ask;
use super::dumps::count_dump;
use ballot::Members;
use bean_queue::Queue;
use bean_words::{Body, Op, Reply};
use hall::{Hall, Ticket};
use std::alloc::Global;
use std::time::CpuClock;

/// So many jobs come before those that are timed first.
const WARM_UP: u64 = 1_000;

/// So many jobs, of three commands each, are timed at the start and at the end.
const TIMED: u64 = 333;

/// What each job has.
const BODY: [u8; 100] = [b'x'; 100];

/// What each job has in a dump of many answers: in each of two lines of the dump that gives 400 bytes.
const LARGE_BODY: [u8; 200] = [b'x'; 200];

/// A dump of many answers is longer than this.
const LARGE: usize = 16 * 1024 * 1024;

/// So many jobs. The processor time is told before and after the first and the last of them.
pub fn handle(rt: &HostRuntime, members: Members, jobs: u64) -> Option<()> {
    let mut hall = Hall::new(rt.alloc(), members).ok()?;
    handle_all(rt, &mut hall, jobs, true)
}

/// The same without the time. Then the dump is written, read and checked, and it is told how many commands the order has.
pub fn handle_and_dump(rt: &HostRuntime, members: Members, jobs: u64) -> Option<()> {
    let mut hall = Hall::new(rt.alloc(), members).ok()?;
    handle_all(rt, &mut hall, jobs, false)?;
    tell_order(rt, &hall)
}

fn tell_order(rt: &HostRuntime, hall: &Hall<Queue>) -> Option<()> {
    let counts = count_dump(rt.alloc(), hall)?;
    println!(rt; "legal {}", counts.order).ok()
}

/// So many jobs of large bodies. It is told how many answers the dump has, which is large.
pub fn dump_many_answers(rt: &HostRuntime, members: Members, jobs: u64) -> Option<()> {
    let mut hall = Hall::new(rt.alloc(), members).ok()?;
    handle_large(rt.alloc(), &mut hall, jobs)?;
    tell_answers(rt, &hall)
}

fn tell_answers(rt: &HostRuntime, hall: &Hall<Queue>) -> Option<()> {
    let counts = count_dump(rt.alloc(), hall)?;
    if counts.bytes <= LARGE {
        return None;
    }
    println!(rt; "answers {}", counts.answers).ok()
}

/// Two sessions, of which one has each odd job and the other each even one, and what each job has.
#[derive(Drop)]
struct Workers {
    odd: Ticket<Queue>,
    even: Ticket<Queue>,
    body: &'static [u8],
}

impl Workers {
    /// The two are opened, and node 1 wakes.
    fn begin(hall: &mut Hall<Queue>, body: &'static [u8]) -> Option<Workers> {
        hall.wake(1).ok()?;
        let odd = hall.open_session().ok()?;
        let even = hall.open_session().ok()?;
        Some(Workers { odd, even, body })
    }

    /// The next job.
    fn handle(&mut self, alloc: Global, hall: &mut Hall<Queue>, job: u64) -> Option<()> {
        let body = self.body;
        let ticket = if job % 2 == 1 {
            &mut self.odd
        } else {
            &mut self.even
        };
        handle_one(alloc, hall, ticket, body, job)
    }
}

fn handle_all(rt: &HostRuntime, hall: &mut Hall<Queue>, jobs: u64, is_timed: bool) -> Option<()> {
    let marks = [WARM_UP, WARM_UP + TIMED, jobs.saturating_sub(TIMED), jobs];
    let mut workers = Workers::begin(hall, &BODY)?;
    for job in 1..=jobs {
        workers.handle(rt.alloc(), hall, job)?;
        if marks.contains(&job) {
            tell(rt, job, is_timed)?;
        }
    }
    Some(())
}

fn handle_large(alloc: Global, hall: &mut Hall<Queue>, jobs: u64) -> Option<()> {
    let mut workers = Workers::begin(hall, &LARGE_BODY)?;
    for job in 1..=jobs {
        workers.handle(alloc, hall, job)?;
    }
    Some(())
}

// Writes how many jobs there were, and the processor time that they took, in microseconds, or 0.
fn tell(rt: &HostRuntime, job: u64, is_timed: bool) -> Option<()> {
    let spent = if is_timed {
        rt.process_cpu_time().ok()?.as_micros()
    } else {
        0
    };
    println!(rt; "{job} {spent}").ok()
}

// A job is put, reserved and deleted by one session. Jobs have the numbers 1, 2, ...
fn handle_one(
    alloc: Global,
    hall: &mut Hall<Queue>,
    ticket: &mut Ticket<Queue>,
    body: &[u8],
    job: u64,
) -> Option<()> {
    put(alloc, hall, ticket, body)?;
    ask(hall, ticket, Op::Reserve { seconds: None })?;
    ask(hall, ticket, Op::Delete(job))?;
    match ticket.noted()? {
        Reply::Deleted => Some(()),
        _ => None,
    }
}

fn put(
    alloc: Global,
    hall: &mut Hall<Queue>,
    ticket: &mut Ticket<Queue>,
    body: &[u8],
) -> Option<()> {
    let body = Body::new(alloc, body).ok()?;
    let put = Op::Put {
        pri: 0,
        delay: 0,
        ttr: 60,
        body,
    };
    ask(hall, ticket, put)
}
