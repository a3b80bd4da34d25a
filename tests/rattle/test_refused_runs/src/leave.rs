//! A client leaves with a job, and its session has to end, also where its end was refused at first:
//! the next client gets the job.
use crate::leaving::{Arrivals, Leave, Sent, Still, Taking};
use ballot::Members;
use bean_queue::Queue;
use beanpax::{Host, Writing};
use hall::Hall;
use node_threads::run_cluster;
use std::alloc::Global;
use std::fmt;
use std::fmt::Display;
use std::io::{PipeReader, Read, pipe};

/// What the client asks before it leaves, and what it is told. There are four commands, so that its
/// lists are full when it leaves, and its end takes memory.
const ASKS: &[u8] = b"use default\r\nput 0 0 1000000 1\r\nx\r\nwatch default\r\nreserve\r\n";

const ANSWERS: &[u8] = b"USING default\r\nINSERTED 1\r\nWATCHING 1\r\nRESERVED 1 1\r\nx\r\n";

/// What each of two others asks that come after it, and what it is told where the job is ready
/// again.
const NEXT_ASKS: &[u8] = b"reserve-with-timeout 100\r\n";

const NEXT_ANSWERS: &[u8] = b"RESERVED 1 1\r\nx\r\n";

/// How that went.
#[derive(Clone, Copy, Debug, PartialEq, Eq)]
pub enum Left {
    /// Memory was taken so many times until it was refused.
    Taken(u64),
    /// The next client got the job.
    Closed,
    /// The next one was refused, and the one after it got the job.
    ClosedLate,
    /// The client was refused before it left.
    Early,
    /// None of these.
    Wrong,
}

impl Display for Left {
    fn fmt<W: fmt::Write>(&self, f: &mut fmt::Formatter<W>) -> fmt::Result {
        match self {
            Left::Taken(count) => write!(f, "{count} taken"),
            Left::Closed => f.write_str("the next client got the job"),
            Left::ClosedLate => f.write_str(
                "the next client was refused, and the one after it got the job",
            ),
            Left::Early => f.write_str("refused before the client left"),
            Left::Wrong => f.write_str("wrong"),
        }
    }
}

/// What of a client's replies was read.
#[derive(Drop)]
struct Told {
    bytes: [u8; 64],
    count: usize,
}

impl Told {
    // All that it was told, when the server has gone.
    fn of(mut from: PipeReader) -> Told {
        let mut bytes = [0; 64];
        let count = from.read(&mut bytes).unwrap_or(0);
        Told { bytes, count }
    }

    fn is(&self, text: &[u8]) -> bool {
        self.bytes.get(..self.count) == Some(text)
    }

    fn is_refusal(&self) -> bool {
        self.count == 0 || self.is(b"OUT_OF_MEMORY\r\n")
    }
}

/// One node and one worker serve three clients, of which the first leaves with a job.
pub fn leave_with_a_job<H: Host>(rt: &H, taking: Taking) -> Option<Left> {
    let leave = Leave::new(rt.alloc(), taking);
    let (first, first_writer) = pipe(rt).ok()?;
    let (second, second_writer) = pipe(rt).ok()?;
    let (third, third_writer) = pipe(rt).ok()?;
    let clients = vec![in rt.alloc();
        (
            Sent::new(rt, NEXT_ASKS, &leave, false),
            Writing::new(third_writer)
        ),
        (
            Sent::new(rt, NEXT_ASKS, &leave, false),
            Writing::new(second_writer)
        ),
        (
            Sent::new(rt, ASKS, &leave, true),
            Writing::new(first_writer)
        ),
    ]
    .ok()?;
    let arrivals = Arrivals {
        rt,
        leave: &leave,
        clients,
        count: 0,
        has_ended: false,
    };
    let is_well = serve(rt, rt.alloc(), arrivals, &leave)?;
    let told = [Told::of(first), Told::of(second), Told::of(third)];
    leave.end();
    Some(judge(taking, leave.taken(), is_well, &told))
}

// Serves the clients, and tells whether no fault was told.
fn serve<H: Host>(rt: &H, alloc: Global, arrivals: Arrivals<'_, H>, leave: &Leave) -> Option<bool> {
    let hall = Hall::<Queue>::new(alloc, Members::new(1)?).ok()?;
    let clock = Still {
        rt,
        leave,
        second: 0,
    };
    let ended = run_cluster(rt, alloc, hall, arrivals, clock, 1, leave);
    Some(ended.fault.is_none())
}

// What these clients were told shows that the session of the first ended.
fn judge(taking: Taking, taken: u64, is_well: bool, told: &[Told; 3]) -> Left {
    let [first, second, third] = told;
    let as_asked = match taking {
        Taking::Times(count) => taken == count,
        _ => return Left::Taken(taken),
    };
    if !first.is(ANSWERS) || !as_asked {
        return Left::Early;
    }
    let second_got = second.is(NEXT_ANSWERS);
    let third_got = third.is(NEXT_ANSWERS);
    if is_well && second_got && (third_got || third.is_refusal()) {
        Left::Closed
    } else if is_well && second.is_refusal() && third_got {
        Left::ClosedLate
    } else {
        Left::Wrong
    }
}
