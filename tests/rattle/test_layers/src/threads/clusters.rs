//! Clusters, and what they leave.
use crate::threads::clients::{Hasty, Queued, Served};
use ballot::Members;
use bean_queue::Queue;
use chronicle::{CheckFault, What, check};
use chronicle_text::{ReadFault, WriteText, read_text};
use hall::Hall;
use node_threads::{Accept, Ended, Faults, Gate, Seconds, run_cluster, run_cluster_faulty};
use session::Writing;
use std::alloc::{AllocError, Global};
use std::io::PipeWriter;
use std::rt::Clock;
use std::sync::Wait;
use std::sync::atomic::AtomicBool;
use std::thread::Threads;

/// Three nodes and two workers serve these clients, the last of the list first.
pub fn serve<R: Threads + Wait + Clock + Sync, G: Gate + Sync>(
    rt: &R,
    alloc: Global,
    clients: Vec<Served>,
    is_stopped: &AtomicBool,
    gate: &G,
) -> Result<Ended<Queue, Queued<Writing<PipeWriter>>>, AllocError> {
    let hall = Hall::new(alloc, Members::new(3).unwrap())?;
    let seconds = Hasty {
        second: 0,
        is_stopped,
    };
    Ok(run_cluster(rt, alloc, hall, Queued::new(clients), seconds, 2, gate))
}

/// These nodes and so many workers, 1 to 64, serve the clients that come, while mishaps befall the nodes.
pub fn serve_faulty<
    R: Threads + Wait + Clock + Sync,
    A: Accept + Drop,
    T: Seconds + Send + Drop,
    G: Gate + Sync,
    F: Faults + Sync,
>(
    rt: &R,
    alloc: Global,
    members: Members,
    workers: u32,
    accept: A,
    seconds: T,
    gate: &G,
    faults: &F,
) -> Result<Ended<Queue, A>, AllocError> {
    let hall = Hall::new(alloc, members)?;
    let workers = if workers < 1 || workers > 64 {
        1
    } else {
        workers
    };
    Ok(run_cluster_faulty(rt, alloc, hall, accept, seconds, workers, gate, faults))
}

/// Whether such a cluster ends well.
pub fn ends_well<
    R: Threads + Wait + Clock + Sync,
    A: Accept + Drop,
    T: Seconds + Send + Drop,
    G: Gate + Sync,
    F: Faults + Sync,
>(
    rt: &R,
    alloc: Global,
    members: Members,
    workers: u32,
    accept: A,
    seconds: T,
    gate: &G,
    faults: &F,
) -> Result<bool, AllocError> {
    let ended = serve_faulty(rt, alloc, members, workers, accept, seconds, gate, faults)?;
    Ok(ended.fault.is_none())
}

/// Whether nothing is wrong with the dump, and something is where the first command of session 1 has another answer.
pub fn is_explained<A>(alloc: Global, ended: &Ended<Queue, A>) -> Result<bool, ReadFault> {
    let mut text = Vec::new(alloc);
    ended.hall.dump()?.write_text(&mut text)?;
    let other = with_another_answer(alloc, text.as_slice())?;
    let is_legal = found_of(alloc, text.as_slice())?.is_ok();
    let refusal = found_of(alloc, other.as_slice())?;
    Ok(is_legal && matches!(refusal, Err(CheckFault::At(_, What::NotTheQueuesAnswer))))
}

// What is found of the dump.
fn found_of(alloc: Global, text: &[u8]) -> Result<Result<(), CheckFault>, ReadFault> {
    let chronicle = read_text(alloc, text)?;
    Ok(check(alloc, &chronicle))
}

// The dump, in which the first command of session 1 put the job 9.
fn with_another_answer(alloc: Global, text: &[u8]) -> Result<Vec<u8>, AllocError> {
    let mut changed = Vec::new(alloc);
    for line in text.split_inclusive(|byte| *byte == b'\n') {
        let is_answer = line.starts_with(b"A 1 1 INSERTED ");
        changed.extend_from_slice(if is_answer {
            b"A 1 1 INSERTED 9\n"
        } else {
            line
        })?;
    }
    Ok(changed)
}

/// The lines of the dump, but for those of the clock, of how sessions ended, and of the order.
pub fn lines_of<A>(alloc: Global, ended: &Ended<Queue, A>) -> Result<Vec<u8>, AllocError> {
    let mut text = Vec::new(alloc);
    ended.hall.dump()?.write_text(&mut text)?;
    let mut lines = Vec::new(alloc);
    for line in text.as_slice().split_inclusive(|byte| *byte == b'\n') {
        let is_left_out = line.starts_with(b"S 0 ")
            || line.starts_with(b"O ")
            || line.ends_with(b" close\n");
        if !is_left_out {
            lines.extend_from_slice(line)?;
        }
    }
    Ok(lines)
}

/// Whether the dump has this line.
pub fn has_line<A>(
    alloc: Global,
    ended: &Ended<Queue, A>,
    wanted: &[u8],
) -> Result<bool, AllocError> {
    let mut text = Vec::new(alloc);
    ended.hall.dump()?.write_text(&mut text)?;
    Ok(
        text.as_slice()
            .split_inclusive(|byte| *byte == b'\n')
            .any(|line| line == wanted),
    )
}
