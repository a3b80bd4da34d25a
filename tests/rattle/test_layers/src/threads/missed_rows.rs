//! A put that isn't answered before a second has passed, because of what befell a node.
use crate::threads::clients::{Client, Queued, connect};
use crate::threads::clusters::{has_line, serve_faulty};
use crate::threads::faults::{LosesUntil, RestartsAtFirst};
use crate::threads::gates::Bounded;
use ballot::Members;
use node_threads::{Faults, Seconds};
use std::fs::Files;
use std::process::Abort;
use std::rt::Clock;
use std::sync::Wait;
use std::sync::atomic::{AtomicBool, Ordering};
use std::test::Fail;
use std::thread;
use std::thread::Threads;
use std::time::Duration;

/// So many naps the clock waits for the answer to the put before it goes, and then before each second; and how long a nap
/// is, in milliseconds.
const NAPS: u32 = 100;

const NAPS_A_SECOND: u32 = 1;

const NAP: u64 = 1;

/// A clock that goes when it has looked so often in vain whether it is stopped.
#[derive(Drop)]
struct Late<'a, R> {
    rt: &'a R,
    naps: u32,
    second: u64,
    goes: &'a AtomicBool,
    is_stopped: &'a AtomicBool,
}

impl<'a, R: Clock> Seconds for Late<'a, R> {
    fn next(&mut self) -> Option<u64> {
        for _ in 0..self.naps {
            if self.is_stopped.load(Ordering::SeqCst) {
                break;
            }
            thread::sleep(self.rt, Duration::from_millis(NAP));
        }
        self.naps = NAPS_A_SECOND;
        if self.is_stopped.load(Ordering::SeqCst) || self.second >= 1 << 40 {
            return None;
        }
        self.goes.store(true, Ordering::SeqCst);
        self.second += 1;
        Some(self.second)
    }
}

/// Puts a job, and stops the clock.
fn put(mut client: Client, is_stopped: &AtomicBool) -> bool {
    let heard = client.asks(b"put 0 0 9 1\r\nx\r\n", b"INSERTED 1\r\n");
    is_stopped.store(true, Ordering::SeqCst);
    heard
}

/// Whether a put at these nodes is answered, but not before a second has passed. The mishaps are told when the clock
/// goes.
fn is_late<R: Threads + Wait + Clock + Sync + Abort + Files + AllocGlobal, F: Faults + Sync>(
    rt: &R,
    members: Members,
    goes: &AtomicBool,
    faults: &F,
) -> Result<bool, Fail> {
    let alloc = rt.alloc();
    let (client, served) = connect(rt)?;
    let clients = vec![in alloc; served]?;
    let is_stopped = AtomicBool::new(false);
    let seconds = Late {
        rt,
        naps: NAPS,
        second: 0,
        goes,
        is_stopped: &is_stopped,
    };
    let gate = Bounded::new(rt, 10_000);
    let (ended, heard) = thread::join(
        rt,
        || serve_faulty(
            rt,
            alloc,
            members,
            1,
            Queued::new(clients),
            seconds,
            &gate,
            faults,
        ),
        || put(client, &is_stopped),
    );
    let ended = ended?;
    Ok(heard && ended.fault.is_none() && has_line(alloc, &ended, b"S 0 1 tick\n")?)
}

// What was handed in before the node restarts is lost, and handed in again when a second has passed. Tried: where no
// restart is made, the put is answered before that.
#[test]
fn a_restart_loses_what_was_handed_in(rt: HostRuntime) -> Result<(), Fail> {
    let goes = AtomicBool::new(false);
    let is_late = is_late(&rt, Members::new(1).unwrap(), &goes, &RestartsAtFirst)?;
    assert!(rt; is_late);
    Ok(())
}

// Node 2 never hears what it is asked for, until a second has passed and it is asked again. Tried: where no letter is
// lost, the put is answered before that.
#[test]
fn a_lost_letter_is_missed(rt: HostRuntime) -> Result<(), Fail> {
    let goes = AtomicBool::new(false);
    let is_late = is_late(
        &rt,
        Members::new(2).unwrap(),
        &goes,
        &LosesUntil { goes: &goes },
    )?;
    assert!(rt; is_late);
    Ok(())
}
