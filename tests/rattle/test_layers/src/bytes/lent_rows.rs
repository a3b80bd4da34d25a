//! How many bytes a reader is asked for at a time.
use crate::bytes::echo::Echo;
use session::memory::PieceWriter;
use session::{End, Reading, serve};
use std::alloc::{AllocError, Global};
use std::io;
use std::io::Read;
use std::test::Fail;

const REQUEST: &[u8] = b"delete 9\r\n";

const ANSWER: &[u8] = b"NOT_FOUND\r\n";

/// So many requests are 20,000 bytes.
const REQUESTS: usize = 2_000;

/// Gives as many bytes as there is room for, and notes the largest buffer that it was lent.
#[derive(Drop)]
struct NotingReader<'a> {
    rest: &'a [u8],
    largest: usize,
}

impl Read for NotingReader<'_> {
    fn read(&mut self, buf: &mut [u8]) -> io::Result<usize> {
        self.largest = self.largest.max(buf.len());
        let n = buf.len().min(self.rest.len());
        let (piece, rest) = self.rest.split_at(n);
        buf[..n].copy_from_slice(piece);
        self.rest = rest;
        Ok(n)
    }
}

/// A text, so often.
fn repeated(alloc: Global, text: &[u8]) -> Result<Vec<u8>, AllocError> {
    let mut texts = Vec::new(alloc);
    for _ in 0..REQUESTS {
        texts.extend_from_slice(text)?;
    }
    Ok(texts)
}

#[test]
fn lends_at_most_4096_bytes(rt: HostRuntime) -> Result<(), Fail> {
    let alloc = rt.alloc();
    let input = repeated(alloc, REQUEST)?;
    let mut noting = NotingReader {
        rest: input.as_slice(),
        largest: 0,
    };
    let mut writer = PieceWriter::new(alloc, usize::MAX, usize::MAX);
    let end = serve(
        alloc,
        &mut Reading::new(&mut noting),
        &mut writer,
        &mut Echo::new(),
    );
    assert!(rt; end == Ok(End::Eof));
    assert!(rt; writer.bytes() == repeated(alloc, ANSWER)?.as_slice());
    assert!(rt;
        0 < noting.largest && noting.largest <= 4096,
        "{}",
        noting.largest
    );
    Ok(())
}
