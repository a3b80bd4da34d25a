//! Clients are answered where one node weighs as much as a majority, while the others restart all the time.
use crate::threads::clients::{Hasty, Queued, connect_once, told};
use crate::threads::clusters::{is_explained, serve_faulty};
use crate::threads::faults::{Counted, OthersRestart};
use crate::threads::gates::Bounded;
use crate::threads::mishap_rows::inserted;
use ballot::Members;
use std::sync::atomic::AtomicBool;
use std::test::Fail;

// Five clients put a job each. Nodes 2 and 3 restart at each of their turns, and node 1 is a majority by itself.
#[test]
fn others_restart_at_each_turn(rt: HostRuntime) -> Result<(), Fail> {
    let alloc = rt.alloc();
    let mut clients = Vec::new(alloc);
    let mut puts = Vec::new(alloc);
    for _ in 0..5u8 {
        let (from, served) = connect_once(&rt, b"put 0 0 9 1\r\nx\r\n")?;
        clients.push(served)?;
        puts.push(from)?;
    }
    let is_stopped = AtomicBool::new(false);
    let seconds = Hasty {
        second: 0,
        is_stopped: &is_stopped,
    };
    let gate = Bounded::new(&rt, 100_000);
    let mishaps = Counted::new(alloc, OthersRestart)?;
    let members = Members::weighted(&[3, 1, 1]).ok_or("no members")?;
    let accept = Queued::new(clients);
    let ended = serve_faulty(&rt, alloc, members, 2, accept, seconds, &gate, &mishaps)?;
    let mut ids = Vec::new(alloc);
    for from in puts {
        ids.push(inserted(told(alloc, from)?.as_slice()))?;
    }
    ids.sort_unstable();
    let is_explained = is_explained(alloc, &ended)?;
    assert!(rt; ids.iter().copied().eq((1..=5).map(Some)));
    assert!(rt; ended.fault.is_none());
    assert!(rt; is_explained);
    assert!(rt; mishaps.restarts() > 2);
    Ok(())
}
