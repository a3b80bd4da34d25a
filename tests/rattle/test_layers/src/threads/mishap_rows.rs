//! Clients are answered while nodes restart, and letters are lost or come again.
ghost use Rattle.std.specs.Prelude.{false};

use crate::threads::clients::{Hasty, Queued, Served, connect, connect_once, told};
use crate::threads::clusters::{is_explained, serve_faulty};
use crate::threads::faults::{Counted, RestartsOnce};
use crate::threads::gates::{Bounded, Hold, HoldsChoice};
use crate::threads::held_rows::put_and_release;
use ballot::Members;
use node_threads::Accept;
use session::{Failed, Reading, Writing};
use std::io::{PipeReader, PipeWriter};
use std::sync::atomic::{AtomicBool, Ordering};
use std::test::Fail;
use std::thread;

/// So often a thread looks whether it may go on.
const MOST_LOOKS: u64 = 100_000_000;

/// Clients, the last of whom comes when all three nodes have restarted.
#[derive(Drop)]
struct AfterRestarts<'a> {
    clients: Vec<Served>,
    mishaps: &'a Counted<RestartsOnce>,
    has_ended: bool,
}

impl<'a> Accept for AfterRestarts<'a> {
    type R = Reading<PipeReader>;

    type W = Writing<PipeWriter>;

    ghost has_failed = { λ _. false };

    ghost has_ended = { λ accept. accept.has_ended };

    fn next(&mut self) -> Result<Option<Served>, Failed> {
        if self.clients.len() == 1 {
            for _ in 0..MOST_LOOKS {
                if self.mishaps.restarts() == 3 {
                    break;
                }
                thread::yield_now();
            }
        }
        match self.clients.pop() {
            Some(client) => Ok(Some(client)),
            None => {
                self.has_ended = true;
                Ok(None)
            }
        }
    }
}

/// The number of the job that a put was answered with, where that was all.
pub(crate) fn inserted(told: &[u8]) -> Option<u64> {
    let number = told.strip_prefix(b"INSERTED ")?.strip_suffix(b"\r\n")?;
    std::str::from_utf8(number).ok()?.parse().ok()
}

// Five clients put a job each. Each node restarts once, and letters come again.
#[test]
fn nodes_restart_while_clients_put(rt: HostRuntime) -> Result<(), Fail> {
    let alloc = rt.alloc();
    let mut clients = Vec::new(alloc);
    let mut puts = Vec::new(alloc);
    for _ in 0..5u8 {
        let (from, served) = connect_once(&rt, b"put 0 0 9 1\r\nx\r\n")?;
        clients.push(served)?;
        puts.push(from)?;
    }
    let is_stopped = AtomicBool::new(false);
    let seconds = Hasty {
        second: 0,
        is_stopped: &is_stopped,
    };
    let gate = Bounded::new(&rt, 10_000);
    let mishaps = Counted::new(alloc, RestartsOnce)?;
    let accept = AfterRestarts {
        clients,
        mishaps: &mishaps,
        has_ended: false,
    };
    let members = Members::new(3).unwrap();
    let ended = serve_faulty(&rt, alloc, members, 2, accept, seconds, &gate, &mishaps)?;
    let mut ids = Vec::new(alloc);
    for from in puts {
        ids.push(inserted(told(alloc, from)?.as_slice()))?;
    }
    ids.sort_unstable();
    let is_explained = is_explained(alloc, &ended)?;
    assert!(rt; ids.iter().copied().eq((1..=5).map(Some)));
    assert!(rt; ended.fault.is_none());
    assert!(rt; is_explained);
    assert_eq!(rt; mishaps.restarts(), 3);
    assert!(rt; mishaps.was_asked_in_turn(gate.turns_of_nodes()));
    Ok(())
}

// A put is answered while node 1 is held where the mishap of its first turn is chosen. Tried: with the lock held over
// the choice, the put isn't answered until the hold is given up.
#[test]
fn lock_held_while_choosing(rt: HostRuntime) -> Result<(), Fail> {
    let alloc = rt.alloc();
    let (client, served) = connect(&rt)?;
    let clients = vec![in alloc; served]?;
    let is_stopped = AtomicBool::new(false);
    let seconds = Hasty {
        second: 0,
        is_stopped: &is_stopped,
    };
    let held = HoldsChoice {
        node: 1,
        hold: Hold::new(),
    };
    let members = Members::new(3).unwrap();
    let (ended, heard) = thread::join(
        &rt,
        || serve_faulty(
            &rt,
            alloc,
            members,
            2,
            Queued::new(clients),
            seconds,
            &held,
            &held,
        ),
        || put_and_release(client, &held.hold, &is_stopped),
    );
    assert!(rt; heard);
    assert!(rt; held.hold.was_released());
    assert!(rt; ended?.fault.is_none());
    Ok(())
}
