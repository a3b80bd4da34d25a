//! A client leaves with a job that it has reserved, and the next client gets the job.
use crate::threads::clients::{Hasty, Queued, connect_once, told};
use crate::threads::clusters::{has_line, is_explained};
use crate::threads::gates::Bounded;
use crate::threads::narrow::Narrow;
use ballot::Members;
use hall::Hall;
use node_threads::run_cluster;
use std::fs::Files;
use std::process::Abort;
use std::rt::Clock;
use std::sync::Wait;
use std::sync::atomic::AtomicBool;
use std::test::Fail;
use std::thread::Threads;

/// What the first client is told, where it hears all of it.
const FIRST: &[u8] = b"INSERTED 1\r\nRESERVED 1 1\r\nx\r\n";

/// What the second one is.
const SECOND: &[u8] = b"RESERVED 1 1\r\nx\r\n";

/// What was told to both, and whether the run was as it should be.
#[derive(Drop)]
struct Left {
    first: Vec<u8>,
    second: Vec<u8>,
    is_right: bool,
}

/// One of three nodes' clients puts a job, reserves it and leaves, and then another one reserves. So many bytes are
/// written to the first.
fn leave<R: Threads + Wait + Clock + Sync + Abort + Files + AllocGlobal>(
    rt: &R,
    room: usize,
) -> Result<Left, Fail> {
    let alloc = rt.alloc();
    let (first, (reader, writer)) = connect_once(rt, b"put 0 0 9 1\r\nx\r\nreserve\r\n")?;
    let (second, (next_reader, next_writer)) = connect_once(rt, b"reserve\r\n")?;
    let clients = vec![in alloc;
        (next_reader, Narrow::new(next_writer, usize::MAX)),
        (reader, Narrow::new(writer, room)),
    ]?;
    let is_stopped = AtomicBool::new(false);
    let seconds = Hasty {
        second: 0,
        is_stopped: &is_stopped,
    };
    let gate = Bounded::new(rt, 10_000);
    let hall = Hall::new(alloc, Members::new(3).unwrap())?;
    let ended = run_cluster(rt, alloc, hall, Queued::new(clients), seconds, 1, &gate);
    let is_right = ended.fault.is_none()
        && is_explained(alloc, &ended)?
        && has_line(alloc, &ended, b"S 1 3 close\n")?;
    Ok(Left {
        first: told(alloc, first)?,
        second: told(alloc, second)?,
        is_right,
    })
}

#[test]
fn a_client_leaves_with_a_job(rt: HostRuntime) -> Result<(), Fail> {
    let left = leave(&rt, usize::MAX)?;
    assert!(rt; left.first.as_slice() == FIRST);
    assert!(rt; left.second.as_slice() == SECOND);
    assert!(rt; left.is_right);
    Ok(())
}

#[test]
fn a_client_is_cut_off_with_a_job(rt: HostRuntime) -> Result<(), Fail> {
    let left = leave(&rt, 15)?;
    assert!(rt; left.first.as_slice() == &FIRST[..15]);
    assert!(rt; left.second.as_slice() == SECOND);
    assert!(rt; left.is_right);
    Ok(())
}
