//! What is measured.

use crate::hosts::Hosts;
use object::{Act, RegisterOp};

/// So many commands are under way at once.
const BATCH: u64 = 64;

/// Measures one thing, of this size.
pub fn measure(rt: &HostRuntime, is_timed: bool, what: &str, size: &str) -> Option<()> {
    let size = size.parse::<u64>().ok()?;
    match what {
        "commands" => commands(rt, is_timed, size),
        "sessions" => sessions(rt, is_timed, size),
        _ => None,
    }
}

// So many commands of a few sessions, each after the reply to the one before.
fn commands(rt: &HostRuntime, is_timed: bool, count: u64) -> Option<()> {
    let mut hosts = Hosts::new(rt, is_timed)?;
    let mut sessions = Vec::new(rt.alloc());
    for _ in 0..BATCH {
        sessions.push(hosts.open_session()?).ok()?;
    }
    for batch in 0..count / BATCH {
        for session in &sessions {
            hosts.ask(*session, Act::Do(RegisterOp::Write(batch)))?;
        }
        hosts.settle(rt)?;
    }
    tell(rt, &hosts, "commands")
}

// So many sessions, some at a time, each of which asks for one command and ends.
fn sessions(rt: &HostRuntime, is_timed: bool, count: u64) -> Option<()> {
    let mut hosts = Hosts::new(rt, is_timed)?;
    let mut most = 0;
    for batch in 0..count / BATCH {
        let mut sessions = Vec::new(rt.alloc());
        for _ in 0..BATCH {
            let session = hosts.open_session()?;
            most = session.max(most);
            sessions.push(session).ok()?;
        }
        for session in &sessions {
            hosts.ask(*session, Act::Do(RegisterOp::Write(batch)))?;
            hosts.ask(*session, Act::Close)?;
        }
        hosts.settle(rt)?;
    }
    println!(rt; "greatest session {most}").ok()?;
    tell(rt, &hosts, "sessions")
}

// How many commands were answered, and how long the leader's host and another one were busy.
fn tell(rt: &HostRuntime, hosts: &Hosts, what: &str) -> Option<()> {
    let (leader, other) = (hosts.spent(0)? / 1_000, hosts.spent(1)? / 1_000);
    let answered = hosts.answered;
    println!(rt; "{what}: {answered} answered, leader {leader}, other {other}").ok()
}
