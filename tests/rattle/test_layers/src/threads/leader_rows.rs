//! Whoever leads goes on to lead while clients are served and seconds pass, however short they are.
use crate::threads::clients::{Client, Queued, connect_all};
use crate::threads::clusters::serve_faulty;
use crate::threads::faults::Nothing;
use crate::threads::gates::GivesTurns;
use crate::threads::soak_rows::cycle;
use ballot::Members;
use bean_queue::Queue;
use hall::{Hall, HallError};
use node_threads::{Accept, Gate, Seconds};
use std::alloc::{AllocError, Global};
use std::fs::Files;
use std::process::Abort;
use std::rt::Clock;
use std::sync::Wait;
use std::sync::atomic::{AtomicBool, Ordering};
use std::test::Fail;
use std::thread;
use std::thread::Threads;

/// Each client puts, reserves and deletes so many jobs.
const CYCLES: u32 = 4;

/// The most seconds that a run may have.
const MOST_SECONDS: u64 = 2_000;

/// So many letters of a node are read in a row at most, and so often all nodes' are.
const MOST_LETTERS: u32 = 100_000;

const MOST_ROUNDS: u32 = 1_000;

/// A clock that gives each node one turn a second, until it is stopped: the first node before the others in one second, and
/// after them in the next. So a proposal of another node stands undecided for two seconds and more. It ends the test,
/// failed, when there were too many seconds.
#[derive(Drop)]
struct Stepwise<'a, R> {
    rt: &'a R,
    nodes: u8,
    second: u64,
    gate: &'a GivesTurns<'a, R>,
}

impl<'a, R: Clock + Abort + Sync> Seconds for Stepwise<'a, R> {
    fn next(&mut self) -> Option<u64> {
        if self.gate.is_stopped() {
            return None;
        }
        let rt = self.rt;
        assert!(rt; self.second < MOST_SECONDS, "too many seconds");
        self.second += 1;
        if self.second % 2 == 0 {
            self.gate.give(1, 1);
            self.gate.give(2, self.nodes);
        } else {
            self.gate.give(2, self.nodes);
            self.gate.give(1, 1);
        }
        Some(self.second)
    }
}

/// Whether each client could put, reserve and delete its jobs. Then the clock is stopped.
fn work<R: Threads + Sync>(
    rt: &R,
    alloc: Global,
    clients: Vec<Client>,
    is_stopped: &AtomicBool,
) -> Result<bool, AllocError> {
    let worked = thread::map_vec(rt, clients, &|mut client| work_on(alloc, &mut client));
    is_stopped.store(true, Ordering::SeqCst);
    let mut all = true;
    for one in worked? {
        all &= one?;
    }
    Ok(all)
}

/// Whether one client could.
fn work_on(alloc: Global, client: &mut Client) -> Result<bool, AllocError> {
    for _ in 0..CYCLES {
        if cycle(alloc, client)?.is_none() {
            return Ok(false);
        }
    }
    Ok(true)
}

/// Reads all letters that are on their way, and those that they bring.
fn read_all(hall: &mut Hall<Queue>) -> Result<(), HallError> {
    for _ in 0..MOST_ROUNDS {
        let mut has_read = false;
        for node in 1..=hall.members().count() {
            has_read |= read_mail(hall, node)?;
        }
        if !has_read {
            break;
        }
    }
    Ok(())
}

/// Reads the letters of one node; tells whether there were any.
fn read_mail(hall: &mut Hall<Queue>, node: u8) -> Result<bool, HallError> {
    for read in 0..MOST_LETTERS {
        if !hall.deliver(node)? {
            return Ok(read > 0);
        }
    }
    Ok(true)
}

/// Whether the node has something to say where it wakes now, once all letters were read: then it doesn't lead.
fn wakes(hall: &mut Hall<Queue>, node: u8) -> bool {
    let has_read = read_all(hall).is_ok() && !hall.work(node).mail;
    has_read && hall.wake(node).is_ok() && hall.work(node).mail
}

/// Whether the first node leads, and no other has woken: each of them, one after the other, wakes now and then leads, since
/// its first ballot is above those of the nodes before.
fn only_first_has_woken(hall: &mut Hall<Queue>) -> bool {
    let nodes = hall.members().count();
    !wakes(hall, 1) && (2..=nodes).all(|node| wakes(hall, node) && !wakes(hall, node))
}

/// Whether such a cluster ends well, and only the first node has woken.
fn ends_led<
    R: Threads + Wait + Clock + Sync,
    A: Accept + Drop,
    T: Seconds + Send + Drop,
    G: Gate + Sync,
>(
    rt: &R,
    alloc: Global,
    members: Members,
    workers: u32,
    accept: A,
    seconds: T,
    gate: &G,
) -> Result<bool, AllocError> {
    let mut ended = serve_faulty(rt, alloc, members, workers, accept, seconds, gate, &Nothing)?;
    Ok(ended.fault.is_none() && only_first_has_woken(&mut ended.hall))
}

/// Whether these nodes and so many workers serve as many clients, and only the first node has woken then.
fn goes_on_to_lead<R: Threads + Wait + Sync + Abort + Clock + Files + AllocGlobal>(
    rt: &R,
    members: Members,
    workers: u32,
) -> Result<bool, Fail> {
    let alloc = rt.alloc();
    let (clients, served) = connect_all(rt, workers)?;
    let is_stopped = AtomicBool::new(false);
    let gate = GivesTurns::new(rt, &is_stopped);
    let seconds = Stepwise {
        rt,
        nodes: members.count(),
        second: 0,
        gate: &gate,
    };
    let accept = Queued::new(served);
    let (ended_led, worked) = thread::join(
        rt,
        || ends_led(rt, alloc, members, workers, accept, seconds, &gate),
        || work(rt, alloc, clients, &is_stopped),
    );
    Ok(ended_led? && worked?)
}

// It is for a cluster in which each second counts as it comes, whether or not each node has had a turn before: there node 2
// wakes while node 1 leads, since a proposal of its own is undecided over two rounds.
#[test]
fn nobody_wakes_while_another_leads(rt: HostRuntime) -> Result<(), Fail> {
    for (nodes, workers) in [(3, 4), (7, 1), (7, 4)] {
        let members = Members::new(nodes).ok_or("no members")?;
        let goes_on_to_lead = goes_on_to_lead(&rt, members, workers)?;
        assert!(rt; goes_on_to_lead);
    }
    Ok(())
}
