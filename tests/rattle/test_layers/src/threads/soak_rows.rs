//! Clients put, reserve and delete jobs while mishaps befall the nodes at a third of their turns.
use crate::threads::clients::{Client, Queued, connect_all};
use crate::threads::clusters::{is_explained, serve_faulty};
use crate::threads::faults::{Counted, Drawn};
use crate::threads::gates::Bounded;
use ballot::Members;
use node_threads::Seconds;
use std::alloc::{AllocError, Global};
use std::fs::Files;
use std::process::Abort;
use std::rt::Clock;
use std::sync::Wait;
use std::sync::atomic::{AtomicBool, Ordering};
use std::test::Fail;
use std::thread;
use std::thread::Threads;
use std::time::Duration;

/// So many clients put a job each, reserve one and delete it.
const CLIENTS: u32 = 8;

/// The mishaps of one run after the other are drawn from these.
const SEEDS: [u64; 3] = [1, 2, 3];

/// The most turns that all threads may have in a run.
const MOST_TURNS: u64 = 20_000;

/// A second has so many turns of nodes, or fewer, where none was taken for so many naps.
const TURNS: u64 = 30;

const NAPS: u32 = 10;

/// How long a nap is, in milliseconds.
const NAP: u64 = 10;

/// A clock that goes as fast as the nodes do, until it is stopped. It sleeps while it waits, so that the nodes have the
/// processor.
#[derive(Drop)]
struct Paced<'a, R> {
    rt: &'a R,
    second: u64,
    gate: &'a Bounded<'a, R>,
    is_stopped: &'a AtomicBool,
}

impl<'a, R: Clock> Paced<'a, R> {
    // Waits until the second is over.
    fn wait(&self) {
        let begun = self.gate.turns_of_nodes();
        let mut seen = begun;
        let mut naps = 0;
        for _ in 0..u64::MAX {
            thread::sleep(self.rt, Duration::from_millis(NAP));
            let turns = self.gate.turns_of_nodes();
            if turns != seen {
                seen = turns;
                naps = 0;
            }
            if turns >= begun.saturating_add(TURNS) || naps >= NAPS {
                return;
            }
            naps += 1;
        }
    }
}

impl<'a, R: Clock> Seconds for Paced<'a, R> {
    fn next(&mut self) -> Option<u64> {
        self.wait();
        if self.is_stopped.load(Ordering::SeqCst) || self.second >= 1 << 40 {
            return None;
        }
        self.second += 1;
        Some(self.second)
    }
}

/// Puts a job, reserves one and deletes it. Answers the number of the one that was deleted; none where a reply is another.
pub(crate) fn cycle(alloc: Global, client: &mut Client) -> Result<Option<u64>, AllocError> {
    let was_put = client.asks(b"put 0 0 4000000000 1\r\nx\r\n", b"INSERTED ")
        && client.number().is_some()
        && client.hears(b"\n");
    if !was_put || !client.asks(b"reserve\r\n", b"RESERVED ") {
        return Ok(None);
    }
    let Some(id) = client.number() else {
        return Ok(None);
    };
    let delete = format!(in alloc; "delete {id}\r\n")?;
    let is_deleted = client.hears(b"1\r\nx\r\n") && client.asks(delete.as_bytes(), b"DELETED\r\n");
    Ok(is_deleted.then_some(id))
}

/// The jobs that all clients deleted, in order; none for a client that was told something else. Then the clock is stopped.
fn deleted<R: Threads + Sync>(
    rt: &R,
    alloc: Global,
    clients: Vec<Client>,
    is_stopped: &AtomicBool,
) -> Result<Vec<Option<u64>>, AllocError> {
    let told = thread::map_vec(rt, clients, &|mut client| cycle(alloc, &mut client));
    is_stopped.store(true, Ordering::SeqCst);
    let mut ids = Vec::new(alloc);
    for id in told? {
        ids.push(id?)?;
    }
    ids.sort_unstable();
    Ok(ids)
}

/// What is left of a run: the jobs that were deleted, whether the cluster ended well and its dump is right, and whether
/// each mishap was chosen, and all of them turn by turn.
#[derive(Drop)]
struct Soaked {
    ids: Vec<Option<u64>>,
    is_right: bool,
    was_asked: bool,
}

/// All clients are served by these nodes and so many workers.
fn soak<R: Threads + Wait + Sync + Abort + Clock + Files + AllocGlobal>(
    rt: &R,
    members: Members,
    workers: u32,
    seed: u64,
) -> Result<Soaked, Fail> {
    let alloc = rt.alloc();
    let (clients, served) = connect_all(rt, CLIENTS)?;
    let is_stopped = AtomicBool::new(false);
    let gate = Bounded::new(rt, MOST_TURNS);
    let seconds = Paced {
        rt,
        second: 0,
        gate: &gate,
        is_stopped: &is_stopped,
    };
    let mishaps = Counted::new(alloc, Drawn { seed })?;
    let accept = Queued::new(served);
    let (ended, ids) = thread::join(
        rt,
        || serve_faulty(
            rt, alloc, members, workers, accept, seconds, &gate, &mishaps,
        ),
        || deleted(rt, alloc, clients, &is_stopped),
    );
    let ended = ended?;
    Ok(Soaked {
        ids: ids?,
        is_right: ended.fault.is_none() && is_explained(alloc, &ended)?,
        was_asked: mishaps.chose_each() && mishaps.was_asked_in_turn(gate.turns_of_nodes()),
    })
}

// Four workers, so that some clients wait for one.
#[test]
fn three_nodes_soak(rt: HostRuntime) -> Result<(), Fail> {
    for seed in SEEDS {
        let soaked = soak(&rt, Members::new(3).unwrap(), 4, seed)?;
        assert!(rt; soaked.ids.iter().copied().eq((1..=8).map(Some)));
        assert!(rt; soaked.is_right);
        assert!(rt; soaked.was_asked);
    }
    Ok(())
}

// Nine workers, so that no client waits for one.
#[test]
fn five_nodes_soak(rt: HostRuntime) -> Result<(), Fail> {
    for seed in SEEDS {
        let soaked = soak(&rt, Members::new(5).unwrap(), 9, seed)?;
        assert!(rt; soaked.ids.iter().copied().eq((1..=8).map(Some)));
        assert!(rt; soaked.is_right);
        assert!(rt; soaked.was_asked);
    }
    Ok(())
}
