//! A client's session ends as it is told to have ended. No node has a thread here, and none is needed.
ghost use Rattle.std.specs.Prelude.{◌≡◌, IfOk};

use crate::threads::gates::{HoldsDesk, SeesPieces};
use ballot::Members;
use bean_queue::Queue;
use hall::Hall;
use node_threads::{Desk, Gate, Shared, attend};
use session::memory::{Ending, PieceReader, PieceWriter};
use session::{ByteIn, ByteOut, End, Failed, SessionFault};
use std::alloc::{AllocError, Global};
use std::marker::Brand;
use std::sync::Wait;
use std::sync::atomic::{AtomicU64, Ordering};
use std::sync::ledger::{Blank, Ledger, Share};
use std::test::Fail;

/// What a client sends, what follows the last byte, how many bytes it takes, and at which node of one its worker stands; and
/// how its session ends, what it was told, and how many operations were asked.
struct Talk {
    sent: &'static [u8],
    ending: Ending,
    room: usize,
    node: u8,
    ended: Result<End, SessionFault>,
    told: &'static [u8],
    asked: u64,
}

static TALKS: [Talk; 6] = [
    Talk {
        sent: b"nope\r\nquit\r\nnope\r\n",
        ending: Ending::End,
        room: 100,
        node: 1,
        ended: Ok(End::Quit),
        told: b"UNKNOWN_COMMAND\r\n",
        asked: 0,
    },
    Talk {
        sent: b"nope\r\nput",
        ending: Ending::End,
        room: 100,
        node: 1,
        ended: Ok(End::Eof),
        told: b"UNKNOWN_COMMAND\r\n",
        asked: 0,
    },
    Talk {
        sent: b"",
        ending: Ending::End,
        room: 100,
        node: 1,
        ended: Ok(End::Eof),
        told: b"",
        asked: 0,
    },
    Talk {
        sent: b"use\r\n",
        ending: Ending::Failure,
        room: 100,
        node: 1,
        ended: Err(SessionFault::ReadFailed),
        told: b"BAD_FORMAT\r\n",
        asked: 0,
    },
    Talk {
        sent: b"nope\r\nquit\r\n",
        ending: Ending::End,
        room: 15,
        node: 1,
        ended: Err(SessionFault::WriteFailed),
        told: b"UNKNOWN_COMMAND",
        asked: 0,
    },
    Talk {
        sent: b"use\r\nlist-tubes\r\nquit\r\n",
        ending: Ending::End,
        room: 100,
        node: 2,
        ended: Err(SessionFault::ServiceStopped),
        told: b"BAD_FORMAT\r\n",
        asked: 1,
    },
];

/// A hall of one node for one worker, and what that counts. No session was opened yet.
fn alone<S: Ledger, C: Ledger>(
    alloc: Global,
    sessions: Blank,
    commands: Blank,
) -> Result<(Shared<Queue, S, C>, Share<S>, Share<C>), AllocError>
    requires sessions_name { sessions.name ≡ S.name }
    requires sessions_parts { (sessions.parts ≡ S.parts) × (S.parts ≡ 1) }
    requires commands_name { commands.name ≡ C.name }
    requires commands_parts { (commands.parts ≡ C.parts) × (C.parts ≡ 1) }
    ensures sessions { IfOk result (λ alone. alone.1.parts ≡ 1) }
    ensures commands { IfOk result (λ alone. alone.2.parts ≡ 1) }
{
    let hall = Hall::<Queue>::new(alloc, Members::new(1).unwrap())?;
    Shared::without_threads(alloc, hall, 1, sessions, commands)
}

/// How the session of this client ends, whose worker hands in at this node; none where it isn't opened.
fn serve_one<S: Ledger, C: Ledger, R: Wait, G: Gate, I: ByteIn + Drop, W: ByteOut>(
    rt: &R,
    alloc: Global,
    shared: &Shared<Queue, S, C>,
    sessions: &mut Share<S>,
    commands: Share<C>,
    reader: I,
    writer: &mut W,
    node: u8,
    gate: &G,
) -> Option<Result<End, SessionFault>>
    requires sessions { sessions.old.parts ≡ 1 }
    requires commands { commands.parts ≡ 1 }
{
    let Ok(ticket) = shared.open_session(rt, sessions, 1) else {
        return None;
    };
    let desk = Desk { worker: 1, node };
    let attended = attend(
        rt, alloc, shared, commands, ticket, reader, writer, desk, gate,
    );
    Some(attended.ended)
}

/// How it ends where it is the only one.
pub fn end_of<S: Ledger, C: Ledger, R: Wait, G: Gate, I: ByteIn + Drop, W: ByteOut>(
    rt: &R,
    alloc: Global,
    sessions: Blank,
    commands: Blank,
    reader: I,
    writer: &mut W,
    node: u8,
    gate: &G,
) -> Result<Option<Result<End, SessionFault>>, AllocError>
    requires sessions_name { sessions.name ≡ S.name }
    requires sessions_parts { (sessions.parts ≡ S.parts) × (S.parts ≡ 1) }
    requires commands_name { commands.name ≡ C.name }
    requires commands_parts { (commands.parts ≡ C.parts) × (C.parts ≡ 1) }
{
    let (shared, mut sessions, commands) = alone::<S, C>(alloc, sessions, commands)?;
    Ok(serve_one(
        rt,
        alloc,
        &shared,
        &mut sessions,
        commands,
        reader,
        writer,
        node,
        gate,
    ))
}

/// Whether a session ends so. The node that isn't there takes no command.
fn ends_so<R: Wait + AllocGlobal>(rt: &R, talk: &Talk) -> Result<bool, AllocError> {
    let gate = HoldsDesk::new(1);
    let reader = PieceReader::new(talk.sent, 4096, talk.ending);
    let mut writer = PieceWriter::new(rt.alloc(), 4096, talk.room);
    let ended = end_of::<Brand, Brand, R, HoldsDesk, PieceReader<'_>, PieceWriter>(
        rt,
        rt.alloc(),
        Blank::new(1),
        Blank::new(1),
        reader,
        &mut writer,
        talk.node,
        &gate,
    )?;
    let was_told = gate.asked() == talk.asked && gate.answered() == talk.asked;
    Ok(ended == Some(talk.ended) && writer.bytes() == talk.told && was_told)
}

// Tried: where the gate isn't told that an ask was answered, it fails.
#[test]
fn ends_as_it_is_told(rt: HostRuntime) -> Result<(), Fail> {
    for talk in TALKS.iter() {
        let ends_so = ends_so(&rt, talk)?;
        assert!(rt; ends_so);
    }
    Ok(())
}

/// A reader that counts how often it was read.
#[derive(Drop)]
struct CountedReader<'a> {
    reader: PieceReader<'a>,
    reads: &'a AtomicU64,
}

impl<'a> ByteIn for CountedReader<'a> {
    ghost remaining = { λ r. ⟦<PieceReader<'a> as ByteIn>⟧.remaining r.reader };

    ghost has_failed = { λ r. ⟦<PieceReader<'a> as ByteIn>⟧.has_failed r.reader };

    ghost has_ended = { λ r. ⟦<PieceReader<'a> as ByteIn>⟧.has_ended r.reader };

    fn read(&mut self, buf: &mut [u8]) -> Result<usize, Failed> {
        let read = self.reader.read(buf);
        self.reads.fetch_add(1, Ordering::SeqCst);
        read
    }
}

/// How many pieces a gate is told of while these bytes are read one by one; none where it is told of one before it was read.
fn pieces_of<R: Wait + AllocGlobal>(rt: &R, bytes: &[u8]) -> Result<Option<u64>, AllocError> {
    let reads = AtomicU64::new(0);
    let gate = SeesPieces::new(&reads);
    let reader = CountedReader {
        reader: PieceReader::new(bytes, 1, Ending::End),
        reads: &reads,
    };
    let mut writer = PieceWriter::new(rt.alloc(), 4096, 4096);
    end_of::<Brand, Brand, R, SeesPieces<'_>, CountedReader<'_>, PieceWriter>(
        rt,
        rt.alloc(),
        Blank::new(1),
        Blank::new(1),
        reader,
        &mut writer,
        1,
        &gate,
    )?;
    Ok(gate.pieces())
}

// Six bytes and the end. Tried: where a piece is told before it is read, it fails.
#[test]
fn a_piece_is_told_after_it_was_read(rt: HostRuntime) -> Result<(), Fail> {
    let pieces = pieces_of(&rt, b"nope\r\n")?;
    assert!(rt; pieces == Some(7));
    Ok(())
}
