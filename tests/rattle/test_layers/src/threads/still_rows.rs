//! Every client is answered at once where no second ever passes: nothing has to be said again.
use crate::threads::clients::{Client, Queued, Still, connect_all};
use crate::threads::clusters::ends_well;
use crate::threads::faults::Nothing;
use crate::threads::gates::Open;
use ballot::Members;
use std::alloc::{AllocError, Global};
use std::fs::Files;
use std::process::Abort;
use std::rt::Clock;
use std::sync::Wait;
use std::sync::atomic::{AtomicBool, Ordering};
use std::test::Fail;
use std::thread;
use std::thread::Threads;

/// So many nodes, and so many workers, with as many clients.
static CLUSTERS: [(u8, u32); 9] = [
    (1, 1),
    (1, 8),
    (1, 64),
    (3, 1),
    (3, 8),
    (3, 64),
    (7, 1),
    (7, 8),
    (7, 64),
];

/// Whether the last client's jobs, which it kicks all at once, go to the others, who wait for them. Then the clock is
/// stopped.
fn is_fair(
    alloc: Global,
    mut clients: Vec<Client>,
    is_stopped: &AtomicBool,
) -> Result<bool, AllocError> {
    let is_fair = match clients.pop() {
        Some(mut kicker) => {
            wait(&mut clients) && kick(alloc, &mut kicker, clients.len())? && get(&mut clients)
        }
        None => false,
    };
    is_stopped.store(true, Ordering::SeqCst);
    Ok(is_fair)
}

/// The clients ask for a job each.
fn wait(clients: &mut Vec<Client>) -> bool {
    let mut have_asked = true;
    for client in clients.iter_mut() {
        have_asked &= client.says(b"reserve\r\n");
    }
    have_asked
}

/// A client puts so many jobs with a long delay, and kicks them all at once.
fn kick(alloc: Global, kicker: &mut Client, jobs: usize) -> Result<bool, AllocError> {
    let mut were_put = true;
    for _ in 0..jobs {
        were_put &= kicker.asks(b"put 0 4000000000 9 1\r\nx\r\n", b"INSERTED ");
        were_put &= kicker.number().is_some() && kicker.hears(b"\n");
    }
    let kicked = format!(in alloc; "KICKED {jobs}\r\n")?;
    Ok(were_put && kicker.asks(b"kick 100\r\n", kicked.as_bytes()))
}

/// The clients get a job each.
fn get(clients: &mut Vec<Client>) -> bool {
    let mut have_got = true;
    for client in clients.iter_mut() {
        have_got &= client.hears(b"RESERVED ") && client.number().is_some();
        have_got &= client.hears(b"1\r\nx\r\n");
    }
    have_got
}

/// Whether all clients of such a cluster are answered.
fn are_answered<R: Threads + Wait + Sync + Abort + Clock + Files + AllocGlobal>(
    rt: &R,
    members: Members,
    workers: u32,
) -> Result<bool, Fail> {
    let alloc = rt.alloc();
    let (clients, served) = connect_all(rt, workers)?;
    let is_stopped = AtomicBool::new(false);
    let seconds = Still::new(rt, &is_stopped);
    let accept = Queued::new(served);
    let (ended_well, is_fair) = thread::join(
        rt,
        || ends_well(
            rt, alloc, members, workers, accept, seconds, &Open, &Nothing,
        ),
        || is_fair(alloc, clients, &is_stopped),
    );
    Ok(ended_well? && is_fair?)
}

// Tried: where the last node's mail is overlooked in what there is after a turn, where of several clients that were answered
// one worker is woken, or where no node wakes at the start, somebody isn't answered, and the clock ends the test, failed.
#[test]
fn all_are_answered_at_once(rt: HostRuntime) -> Result<(), Fail> {
    for (nodes, workers) in CLUSTERS {
        let members = Members::new(nodes).ok_or("no members")?;
        let are_answered = are_answered(&rt, members, workers)?;
        assert!(rt; are_answered);
    }
    Ok(())
}
