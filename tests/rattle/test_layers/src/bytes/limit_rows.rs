//! What goes on far past every small number: where memory is ample, nothing is refused.
use bean_words::{Name, Op, Reply};
use session::memory::{Ending, PieceReader, PieceWriter};
use session::{End, Service, ServiceFault, serve};
use std::alloc::{AllocError, Global};
use std::test::Fail;

/// So many requests are in one session.
const REQUESTS: u64 = 200_000;

const REQUEST: &[u8] = b"list-tube-used\r\n";

const ANSWER: &[u8] = b"USING default\r\n";

/// So many lines of no command are in one session, more than a thousand of them in a piece.
const FAULTS: u64 = 5_000;

const FAULT: &[u8] = b"x\r\n";

const FAULT_LINE: &[u8] = b"UNKNOWN_COMMAND\r\n";

/// A service that answers each ask alike, and counts them.
#[derive(Drop)]
struct Counter {
    alloc: Global,
    asked: u64,
}

impl Service for Counter {
    ghost asks = { λ _ _ _ _. Unit {0} };

    ghost closes = { λ _ _ _. Unit {0} };

    fn ask(&mut self, _: Op) -> Result<Reply, ServiceFault> {
        self.asked = self.asked.saturating_add(1);
        match Name::new(self.alloc, b"default") {
            Ok(Some(tube)) => Ok(Reply::Using(tube)),
            _ => Err(ServiceFault::Stopped),
        }
    }

    fn close(&mut self) -> Result<(), ServiceFault> {
        Ok(())
    }
}

/// The text, so many times.
fn repeated(alloc: Global, text: &[u8], times: u64) -> Result<Vec<u8>, AllocError> {
    let mut texts = Vec::new(alloc);
    for _ in 0..times {
        texts.extend_from_slice(text)?;
    }
    Ok(texts)
}

/// Whether a session of so many of these requests is told as many of these answers, and asks its service so often.
fn is_told(
    alloc: Global,
    request: &[u8],
    answer: &[u8],
    times: u64,
    asked: u64,
) -> Result<bool, Fail> {
    let input = repeated(alloc, request, times)?;
    let output = repeated(alloc, answer, times)?;
    let mut reader = PieceReader::new(input.as_slice(), 4096, Ending::End);
    let mut writer = PieceWriter::new(alloc, 4096, output.len());
    let mut counter = Counter { alloc, asked: 0 };
    let end = serve(alloc, &mut reader, &mut writer, &mut counter);
    let is_all = writer.bytes() == output.as_slice();
    Ok(end == Ok(End::Eof) && is_all && counter.asked == asked)
}

#[test]
fn a_session_of_many_requests(rt: HostRuntime) -> Result<(), Fail> {
    assert!(rt; is_told(rt.alloc(), REQUEST, ANSWER, REQUESTS, REQUESTS)?);
    Ok(())
}

#[test]
fn a_session_of_many_faults(rt: HostRuntime) -> Result<(), Fail> {
    assert!(rt; is_told(rt.alloc(), FAULT, FAULT_LINE, FAULTS, 0)?);
    Ok(())
}
