//! A session that is refused memory ends so. The system refuses it for real: a reader has taken all that there is.
use crate::threads::attend_rows::end_of;
use crate::threads::gates::HoldsDesk;
use session::memory::{Ending, PieceReader, PieceWriter};
use session::{ByteIn, End, Failed, SessionFault};
use std::alloc::{AllocError, Global};
use std::marker::Brand;
use std::sync::Wait;
use std::sync::ledger::Blank;
use std::test::Fail;

/// How many bytes the largest block has that is asked for. Each of the next sizes is half of the one before.
const LARGEST: usize = 1 << 44;

/// The size of the smallest one is the last of so many: 2^15 bytes.
const SIZES: u32 = 30;

/// So many blocks are taken at most; of a size below 2^17 bytes, of which hardly any are left, so many.
const MOST_BLOCKS: usize = 1 << 17;

const MOST_SMALL_BLOCKS: usize = 64;

/// So many bytes a read gives.
const PIECE_LEN: usize = 4096;

/// So many pieces are all but the last bytes of what the client sends, which would fill 2^16 bytes.
const WHOLE_PIECES: u64 = 16;

/// Takes all memory that the system gives in one of so many blocks of this size.
fn take_blocks(alloc: Global, blocks: &mut Vec<Vec<u8>>, len: usize, most: usize) {
    for _ in 0..most {
        let Ok(block) = Vec::with_capacity(alloc, len) else {
            return;
        };
        if blocks.push(block).is_err() {
            return;
        }
    }
}

/// Takes all memory, but for what lies in gaps that are too small.
fn take_all(alloc: Global, blocks: &mut Vec<Vec<u8>>) {
    let mut len = LARGEST;
    for _ in 0..SIZES {
        let most = if len < 1 << 17 {
            MOST_SMALL_BLOCKS
        } else {
            MOST_BLOCKS
        };
        take_blocks(alloc, blocks, len, most);
        len /= 2;
    }
}

/// A reader that takes all memory at one of its reads, and keeps it. A few kilobytes that it had before are free then.
#[derive(Drop)]
struct GreedyReader<'a> {
    alloc: Global,
    reader: PieceReader<'a>,
    /// So many reads come before that one.
    modest_reads: u64,
    spare: Vec<Vec<u8>>,
    blocks: Vec<Vec<u8>>,
}

impl<'a> GreedyReader<'a> {
    fn new(
        alloc: Global,
        reader: PieceReader<'a>,
        modest_reads: u64,
    ) -> Result<GreedyReader<'a>, AllocError> {
        let mut spare = Vec::new(alloc);
        for _ in 0..16u8 {
            spare.push(Vec::with_capacity(alloc, 1024)?)?;
        }
        Ok(GreedyReader {
            alloc,
            reader,
            modest_reads,
            spare,
            blocks: Vec::with_capacity(alloc, MOST_BLOCKS)?,
        })
    }
}

impl<'a> ByteIn for GreedyReader<'a> {
    ghost remaining = { λ r. ⟦<PieceReader<'a> as ByteIn>⟧.remaining r.reader };

    ghost has_failed = { λ r. ⟦<PieceReader<'a> as ByteIn>⟧.has_failed r.reader };

    ghost has_ended = { λ r. ⟦<PieceReader<'a> as ByteIn>⟧.has_ended r.reader };

    fn read(&mut self, buf: &mut [u8]) -> Result<usize, Failed> {
        let read = self.reader.read(buf);
        match self.modest_reads.checked_sub(1) {
            Some(left) => self.modest_reads = left,
            None => {
                take_all(self.alloc, &mut self.blocks);
                self.spare.clear();
            }
        }
        read
    }
}

/// A line that is no command, and a put whose body doesn't come whole: 16 pieces, and 10 bytes more.
fn sent(alloc: Global) -> Result<Vec<u8>, AllocError> {
    let mut sent = Vec::new(alloc);
    sent.extend_from_slice(b"nope\r\nput 0 0 9 65535\r\n")?;
    sent.resize(16 * PIECE_LEN + 10, b'a')?;
    Ok(sent)
}

/// Whether this client's session ends so where its reader takes all memory after so many reads. It was told of its first
/// line, and nothing was asked.
fn ends_so<R: Wait + AllocGlobal>(
    rt: &R,
    modest_reads: u64,
    wanted: Result<End, SessionFault>,
) -> Result<bool, AllocError> {
    let sent = sent(rt.alloc())?;
    let gate = HoldsDesk::new(1);
    let pieces = PieceReader::new(sent.as_slice(), PIECE_LEN, Ending::End);
    let reader = GreedyReader::new(rt.alloc(), pieces, modest_reads)?;
    let mut writer = PieceWriter::new(rt.alloc(), PIECE_LEN, PIECE_LEN);
    let ended = end_of::<Brand, Brand, R, HoldsDesk, GreedyReader<'_>, PieceWriter>(
        rt,
        rt.alloc(),
        Blank::new(1),
        Blank::new(1),
        reader,
        &mut writer,
        1,
        &gate,
    )?;
    let was_told = writer.bytes() == b"UNKNOWN_COMMAND\r\n".as_slice();
    Ok(ended == Some(wanted) && was_told && gate.asked() == 0)
}

// The session has room for 2^16 bytes when the last whole piece comes. It asks for twice as much before it reads on.
#[test]
fn ends_where_it_is_refused_memory(rt: HostRuntime) -> Result<(), Fail> {
    let ends_well = ends_so(&rt, u64::MAX, Ok(End::Eof))?;
    assert!(rt; ends_well);
    let runs_short = ends_so(&rt, WHOLE_PIECES - 1, Err(SessionFault::OutOfMemory))?;
    assert!(rt; runs_short);
    Ok(())
}
