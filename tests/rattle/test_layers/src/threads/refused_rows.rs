//! A node whose turn was refused memory takes it again, though no second passes.
use crate::threads::clients::{Client, Queued, Still, connect_all};
use crate::threads::gates::Open;
use ballot::Members;
use bean_queue::Queue;
use bean_words::{Op, Reply};
use hall::Hall;
use node_threads::{Accept, Seconds, run_cluster};
use object::{Answer, Command, Object};
use std::alloc::{AllocError, Global};
use std::fs::Files;
use std::marker::Model;
use std::process::Abort;
use std::rt::Clock;
use std::sync::Wait;
use std::sync::atomic::{AtomicBool, AtomicU64, Ordering};
use std::test::Fail;
use std::thread;
use std::thread::Threads;

/// So often each queue is refused memory before it obeys its first command.
const REFUSALS: u64 = 4;

/// A queue that is refused memory at first.
#[derive(Drop)]
struct Reluctant {
    queue: Queue,
    tries: AtomicU64,
}

impl Model for Reluctant {
    ghost use Rattle.bean_queue.specs.Queue.{QueueState};

    ghost Value = { QueueState };

    ghost view = { λ r. r.queue };
}

impl Object for Reluctant {
    type Op = Op;

    type Reply = Reply;

    ghost use Rattle.bean_queue.specs.Effects.{queue_rules};
    ghost use Rattle.bean_queue.specs.Waits.{Waits};
    ghost use Rattle.bean_queue.specs.Holds.{HasOneHolder};
    ghost use Rattle.bean_queue.specs.WaitLaws.{fresh-idle, effect-lawful, effect-once};
    ghost use Rattle.std.specs.Prelude.{refl};

    ghost rules = { queue_rules ⟦<Op as PartialEq>⟧.eq };

    ghost waits = { Waits };

    ghost promise = { HasOneHolder };

    fn new(alloc: Global) -> Result<Self, AllocError> {
        Ok(Reluctant {
            queue: Queue::new(alloc)?,
            tries: AtomicU64::new(0),
        })
    }

    fn apply(&mut self, cmd: &Command<Op>, out: &mut Vec<Answer<Reply>>) -> Result<(), AllocError> {
        if self.tries.fetch_add(1, Ordering::SeqCst) < REFUSALS {
            return Err(AllocError);
        }
        self.queue.apply(cmd, out)
    }

    fn obey(&mut self, cmd: &Command<Op>) -> Result<(), AllocError> {
        if self.tries.fetch_add(1, Ordering::SeqCst) < REFUSALS {
            return Err(AllocError);
        }
        self.queue.obey(cmd)
    }

    fn keeps_promise() {
        Queue::keeps_promise();
    }

    ghost same = { refl };

    ghost idle = { fresh-idle };

    ghost waited = { λ s c. (effect-lawful c s).waits };

    ghost named = { λ s c. (effect-lawful c s).named };

    ghost over = { λ s c. (effect-lawful c s).over };

    ghost once = { λ s c. effect-once c s };
}

/// Whether a cluster of such queues, with one worker, ends well.
fn ends_well<R: Threads + Wait + Clock + Sync, A: Accept + Drop, T: Seconds + Send + Drop>(
    rt: &R,
    alloc: Global,
    members: Members,
    accept: A,
    seconds: T,
) -> Result<bool, AllocError> {
    let hall: Hall<Reluctant> = Hall::new(alloc, members)?;
    let ended = run_cluster(rt, alloc, hall, accept, seconds, 1, &Open);
    Ok(ended.fault.is_none())
}

/// Whether the client puts a job. Then the clock is stopped.
fn puts(mut clients: Vec<Client>, is_stopped: &AtomicBool) -> bool {
    let has_put = match clients.pop() {
        Some(mut client) => client.asks(b"put 0 0 9 1\r\nx\r\n", b"INSERTED 1\r\n"),
        None => false,
    };
    is_stopped.store(true, Ordering::SeqCst);
    has_put
}

/// Whether a client of such a cluster is answered, though the clock stands still.
fn is_answered<R: Threads + Wait + Sync + Abort + Clock + Files + AllocGlobal>(
    rt: &R,
    members: Members,
) -> Result<bool, Fail> {
    let alloc = rt.alloc();
    let (clients, served) = connect_all(rt, 1)?;
    let is_stopped = AtomicBool::new(false);
    let seconds = Still::new(rt, &is_stopped);
    let accept = Queued::new(served);
    let (ended_well, has_put) = thread::join(
        rt,
        || ends_well(rt, alloc, members, accept, seconds),
        || puts(clients, &is_stopped),
    );
    Ok(ended_well? && has_put)
}

#[test]
fn a_refused_turn_is_taken_again(rt: HostRuntime) -> Result<(), Fail> {
    for nodes in [1, 3] {
        let members = Members::new(nodes).ok_or("no members")?;
        let is_answered = is_answered(&rt, members)?;
        assert!(rt; is_answered);
    }
    Ok(())
}
