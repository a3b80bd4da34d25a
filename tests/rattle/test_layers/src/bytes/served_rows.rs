//! What stands in a queue after a session, and what is told of one whose writer fails.
use bean_queue::Queue;
use bean_words::{Op, Reply};
use object::{Act, Command, Key, Once};
use session::memory::{Ending, PieceReader, PieceWriter};
use session::{End, Service, ServiceFault, SessionFault, serve};
use std::alloc::Global;
use std::test::Fail;

/// A queue, and how many commands its one session gave.
#[derive(Drop)]
struct OneClient {
    alloc: Global,
    queue: Once<Queue>,
    given: u64,
    times_closed: u64,
}

impl OneClient {
    fn new(alloc: Global) -> Result<OneClient, Fail> {
        Ok(OneClient {
            alloc,
            queue: Once::new(alloc)?,
            given: 0,
            times_closed: 0,
        })
    }

    // The queue's reply to the session's next command.
    fn give(&mut self, act: Act<Op>) -> Result<Option<Reply>, ServiceFault> {
        self.given = self.given.saturating_add(1);
        let key = Key {
            session: 1,
            number: self.given,
        };
        let command = Command::new(key, act).ok_or(ServiceFault::Stopped)?;
        let mut answers = Vec::new(self.alloc);
        match self.queue.apply(&command, &mut answers) {
            Ok(_) => Ok(answers.pop().map(|answer| answer.reply)),
            Err(_) => Err(ServiceFault::Refused),
        }
    }
}

impl Service for OneClient {
    ghost asks = { λ _ _ _ _. Unit {0} };

    ghost closes = { λ _ _ _. Unit {0} };

    fn ask(&mut self, op: Op) -> Result<Reply, ServiceFault> {
        self.give(Act::Do(op))?.ok_or(ServiceFault::Stopped)
    }

    fn close(&mut self) -> Result<(), ServiceFault> {
        self.times_closed = self.times_closed.saturating_add(1);
        let reply = self.give(Act::Close)?;
        if reply.is_none() {
            Ok(())
        } else {
            Err(ServiceFault::Stopped)
        }
    }
}

/// Whether the session ends with its input, is told this, and leaves so many commands behind and no job 1.
fn leaves_no_job(
    alloc: Global,
    input: &[u8],
    output: &[u8],
    given: u64,
    piece_len: usize,
) -> Result<bool, Fail> {
    let mut client = OneClient::new(alloc)?;
    let mut reader = PieceReader::new(input, piece_len, Ending::End);
    let mut writer = PieceWriter::new(alloc, 4096, 1000);
    let end = serve(alloc, &mut reader, &mut writer, &mut client);
    let right = end == Ok(End::Eof) && writer.bytes() == output && client.given == given;
    Ok(right && client.ask(Op::Peek(1)) == Ok(Reply::NotFound))
}

#[test]
fn a_put_without_its_body_leaves_no_job(rt: HostRuntime) -> Result<(), Fail> {
    for piece_len in [1, 7, 4096] {
        let unfinished = leaves_no_job(rt.alloc(), b"put 1 0 1 5\r\nhe", b"", 1, piece_len)?;
        let deleted = leaves_no_job(
            rt.alloc(),
            b"put 1 0 1 1\r\nx\r\ndelete 1\r\n",
            b"INSERTED 1\r\nDELETED\r\n",
            3,
            piece_len,
        )?;
        assert!(rt; unfinished && deleted, "{piece_len}");
    }
    Ok(())
}

/// Whether the session ends with a fault and is closed once where the writer takes the first answer and a part of the
/// second one.
fn breaks_off_within(alloc: Global, piece_len: usize) -> Result<bool, Fail> {
    let mut client = OneClient::new(alloc)?;
    let mut reader = PieceReader::new(b"put 0 0 9 1\r\nx\r\nreserve\r\n", 4096, Ending::End);
    let mut writer = PieceWriter::new(alloc, piece_len, 15);
    let end = serve(alloc, &mut reader, &mut writer, &mut client);
    let is_failed = end == Err(SessionFault::WriteFailed);
    let is_told = writer.bytes() == b"INSERTED 1\r\nRES".as_slice();
    Ok(is_failed && is_told && client.given == 3 && client.times_closed == 1)
}

#[test]
fn a_writer_that_fails_within_an_answer_ends_the_session(rt: HostRuntime) -> Result<(), Fail> {
    for piece_len in [1, 7, 15] {
        assert!(rt; breaks_off_within(rt.alloc(), piece_len)?, "{piece_len}");
    }
    Ok(())
}
