//! Clients that are served, and what is left when they are.
use crate::threads::clients::{Client, connect};
use crate::threads::clusters::{lines_of, serve};
use crate::threads::gates::Open;
use std::sync::atomic::{AtomicBool, Ordering};
use std::test::Fail;
use std::thread;

/// A command, and the reply that is heard before the next is sent.
static TALK: [(&[u8], &[u8]); 3] = [
    (b"put 0 0 9 1\r\nx\r\n", b"INSERTED 1\r\n"),
    (b"reserve\r\n", b"RESERVED 1 1\r\nx\r\n"),
    (b"delete 1\r\n", b"DELETED\r\n"),
];

/// What happened then, but for clock, ends and order.
const TOLD: &[u8] = b"beanpax-dump 1
members 3
S 1 1 put 0 0 9 78
A 1 1 INSERTED 1
S 1 2 reserve
A 1 2 RESERVED 1 78
S 1 3 delete 1
A 1 3 DELETED
end
";

/// Counts the replies that were right, up to the first that wasn't.
fn talk(client: &mut Client) -> usize {
    for (heard, (command, reply)) in TALK.iter().enumerate() {
        if !client.asks(*command, *reply) {
            return heard;
        }
    }
    TALK.len()
}

/// Talks, and then leaves and stops the clock.
fn talk_and_leave(mut client: Client, is_stopped: &AtomicBool) -> usize {
    let heard = talk(&mut client);
    is_stopped.store(true, Ordering::SeqCst);
    heard
}

// Each command is sent after the reply to the one before it. Tried: a worker that reads its client's bytes to their end
// before it answers never answers here.
#[test]
fn reads_all_before_answering(rt: HostRuntime) -> Result<(), Fail> {
    let alloc = rt.alloc();
    let (client, served) = connect(&rt)?;
    let clients = vec![in alloc; served]?;
    let is_stopped = AtomicBool::new(false);
    let (ended, heard) = thread::join(
        &rt,
        || serve(&rt, alloc, clients, &is_stopped, &Open),
        || talk_and_leave(client, &is_stopped),
    );
    assert_eq!(rt; heard, TALK.len());
    assert!(rt; ended?.fault.is_none());
    Ok(())
}

// Tried: a cluster that hands its hall back at once leaves nothing of these.
#[test]
fn hands_back_at_once(rt: HostRuntime) -> Result<(), Fail> {
    let alloc = rt.alloc();
    let (client, served) = connect(&rt)?;
    let clients = vec![in alloc; served]?;
    let is_stopped = AtomicBool::new(false);
    let (ended, _) = thread::join(
        &rt,
        || serve(&rt, alloc, clients, &is_stopped, &Open),
        || talk_and_leave(client, &is_stopped),
    );
    let ended = ended?;
    let lines = lines_of(alloc, &ended)?;
    assert!(rt; lines.as_slice() == TOLD);
    assert!(rt; ended.tickets.iter().any(|list| list.len() == 1));
    Ok(())
}
