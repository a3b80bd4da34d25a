//! Each worker hands its client's commands in at a node of its own, and tells the gate before and after.
use crate::threads::clients::{Client, Queued, Still, connect_all};
use crate::threads::clusters::ends_well;
use crate::threads::faults::Nothing;
use crate::threads::gates::HoldsDesk;
use ballot::Members;
use std::rt::Clock;
use std::sync::atomic::{AtomicBool, Ordering};
use std::test::Fail;
use std::thread;
use std::time::Duration;

/// So many nodes, and so many workers, with a client each.
const NODES: u8 = 3;

const WORKERS: u32 = 9;

/// So long nothing is asked before a node is held, and so long a command has to stay without an answer then, in
/// milliseconds. That is tried so often: a thread of the node may have been late, and amid a turn.
const REST: u64 = 100;

const HELD: u64 = 300;

const TRIES: u64 = 3;

const ASKS: &[u8] = b"list-tube-used\r\n";

const REPLY: &[u8] = b"USING default\r\n";

/// Whether the client isn't answered while the node of its worker is held; none where it isn't before, or when that goes on.
fn waits<R: Clock>(rt: &R, client: &mut Client, gate: &HoldsDesk) -> Option<bool> {
    let was_answered = client.asks(ASKS, REPLY);
    thread::sleep(rt, Duration::from_millis(REST));
    gate.hold_node_of_last_worker();
    let answered = gate.answered();
    let has_asked = client.says(ASKS);
    thread::sleep(rt, Duration::from_millis(HELD));
    let waits = gate.answered() == answered;
    gate.release();
    (was_answered && has_asked && client.hears(REPLY)).then_some(waits)
}

/// How often the client asked until it was seen to wait for the node; none where it never was.
fn asks<R: Clock>(rt: &R, client: &mut Client, gate: &HoldsDesk) -> Option<u64> {
    for tries in 1..=TRIES {
        if waits(rt, client, gate)? {
            return Some(2 * tries);
        }
    }
    None
}

/// How often all clients did, one after the other. Then the clock is stopped.
fn all_asks<R: Clock>(
    rt: &R,
    mut clients: Vec<Client>,
    gate: &HoldsDesk,
    is_stopped: &AtomicBool,
) -> Option<u64> {
    let mut all = Some(0_u64);
    for client in clients.iter_mut() {
        all = match (all, asks(rt, client, gate)) {
            (Some(before), Some(asks)) => before.checked_add(asks),
            _ => None,
        };
    }
    is_stopped.store(true, Ordering::SeqCst);
    all
}

// Worker k hands in at node 1 + k mod 3, and no second passes. Tried: where all workers hand in at node 1, a client
// never waits for the node that is held; where the gate isn't told of an answer, the counts differ; and where node 1 doesn't
// wake at the start, nobody is answered.
#[test]
fn each_worker_has_its_node(rt: HostRuntime) -> Result<(), Fail> {
    let alloc = rt.alloc();
    let members = Members::new(NODES).ok_or("no members")?;
    let (clients, served) = connect_all(&rt, WORKERS)?;
    let is_stopped = AtomicBool::new(false);
    let seconds = Still::new(&rt, &is_stopped);
    let gate = HoldsDesk::new(NODES);
    let accept = Queued::new(served);
    let (ended_well, asks) = thread::join(
        &rt,
        || ends_well(
            &rt, alloc, members, WORKERS, accept, seconds, &gate, &Nothing,
        ),
        || all_asks(&rt, clients, &gate, &is_stopped),
    );
    let ended_well = ended_well?;
    assert!(rt; asks.is_some());
    assert!(rt; ended_well);
    assert_eq!(rt; Some(gate.asked()), asks);
    assert_eq!(rt; Some(gate.answered()), asks);
    assert!(rt; gate.has_seen_all(WORKERS));
    Ok(())
}
