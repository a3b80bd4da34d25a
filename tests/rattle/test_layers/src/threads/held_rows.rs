//! One thread of a cluster is held while others serve a client.
use crate::threads::clients::{Client, connect};
use crate::threads::clusters::{is_explained, lines_of, serve};
use crate::threads::gates::{Hold, HoldsNode, HoldsReader};
use std::sync::atomic::{AtomicBool, AtomicU64, Ordering};
use std::test::Fail;
use std::thread;

/// What happened in the first run, but for clock, ends and order.
const ONE_PUT: &[u8] = b"beanpax-dump 1
members 3
S 1 1 put 0 0 9 78
A 1 1 INSERTED 1
end
";

/// And in the second, where the client that overtakes the other is the second session, and where it is the first.
const SECOND_OF_TWO: &[u8] = b"beanpax-dump 1
members 3
S 2 1 put 0 0 9 78
A 2 1 INSERTED 1
S 1 1 put 0 0 9 68656c6c6f
A 1 1 INSERTED 2
end
";

const FIRST_OF_TWO: &[u8] = b"beanpax-dump 1
members 3
S 1 1 put 0 0 9 78
A 1 1 INSERTED 1
S 2 1 put 0 0 9 68656c6c6f
A 2 1 INSERTED 2
end
";

/// Puts a job, and lets the thread that is held go on when it has heard of it.
pub fn put_and_release(mut client: Client, hold: &Hold, is_stopped: &AtomicBool) -> bool {
    hold.await_held();
    let heard = client.asks(b"put 0 0 9 1\r\nx\r\n", b"INSERTED 1\r\n");
    hold.release();
    is_stopped.store(true, Ordering::SeqCst);
    heard
}

// A put is answered while node 1 is held at its first turn. Tried: with one thread for all nodes, or with the lock held
// over the gate, the put isn't answered until the hold is given up.
#[test]
fn one_thread(rt: HostRuntime) -> Result<(), Fail> {
    let alloc = rt.alloc();
    let (client, served) = connect(&rt)?;
    let clients = vec![in alloc; served]?;
    let is_stopped = AtomicBool::new(false);
    let gate = HoldsNode {
        node: 1,
        hold: Hold::new(),
    };
    let (ended, heard) = thread::join(
        &rt,
        || serve(&rt, alloc, clients, &is_stopped, &gate),
        || put_and_release(client, &gate.hold, &is_stopped),
    );
    let ended = ended?;
    let lines = lines_of(alloc, &ended)?;
    let is_explained = is_explained(alloc, &ended)?;
    assert!(rt; heard);
    assert!(rt; gate.hold.was_released());
    assert!(rt; ended.fault.is_none());
    assert!(rt; lines.as_slice() == ONE_PUT);
    assert!(rt; is_explained);
    Ok(())
}

/// The first client sends half a body. While its worker is held there the second puts a job; then the first sends the
/// rest.
fn put_meanwhile(
    mut first: Client,
    mut second: Client,
    hold: &Hold,
    is_stopped: &AtomicBool,
) -> bool {
    let began = first.says(b"put 0 0 9 5\r\nhe");
    hold.await_held();
    let overtook = second.asks(b"put 0 0 9 1\r\nx\r\n", b"INSERTED 1\r\n");
    hold.release();
    let heard = first.asks(b"llo\r\n", b"INSERTED 2\r\n");
    is_stopped.store(true, Ordering::SeqCst);
    began && overtook && heard
}

// Tried: with the hall's lock held while a worker reads, the second client isn't answered until the hold is given up.
#[test]
fn lock_held_while_reading(rt: HostRuntime) -> Result<(), Fail> {
    let alloc = rt.alloc();
    let (first, first_served) = connect(&rt)?;
    let (second, second_served) = connect(&rt)?;
    let clients = vec![in alloc; second_served, first_served]?;
    let is_stopped = AtomicBool::new(false);
    let gate = HoldsReader {
        reader: AtomicU64::new(0),
        hold: Hold::new(),
    };
    let (ended, heard) = thread::join(
        &rt,
        || serve(&rt, alloc, clients, &is_stopped, &gate),
        || put_meanwhile(first, second, &gate.hold, &is_stopped),
    );
    let ended = ended?;
    let lines = lines_of(alloc, &ended)?;
    let is_explained = is_explained(alloc, &ended)?;
    assert!(rt; heard);
    assert!(rt; gate.hold.was_released());
    assert!(rt; ended.fault.is_none());
    assert!(rt; is_explained);
    let is_either = lines.as_slice() == SECOND_OF_TWO || lines.as_slice() == FIRST_OF_TWO;
    assert!(rt; is_either);
    Ok(())
}
