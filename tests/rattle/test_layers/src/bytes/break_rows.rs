//! Sessions whose reader or writer breaks off at each of its calls.
use crate::bytes::echo::Echo;
use session::{End, Reading, SessionFault, Writing, serve};
use std::alloc::{AllocError, Global};
use std::io;
use std::io::{ErrorKind, Read, Write};
use std::test::Fail;

/// Of an input that takes more reads than these, not each read fails once: so many of the first and of the last do, and each
/// of this number. What comes before isn't read piece by piece each time: but for fewer pieces than `MOST_REPEATED` it is read
/// as one.
const FEW_READS: usize = 1_024;

const FIRST_AND_LAST: usize = 256;

const EACH: usize = 97;

const MOST_REPEATED: usize = 64;

/// Bytes: each part stands there so often.
type Parts = &'static [(usize, &'static [u8])];

/// What a client sends and is told, how its session ends where nothing breaks off, and how many bytes are read and written
/// at a time.
struct Row {
    input: Parts,
    transcript: Parts,
    end: End,
    piece_lens: &'static [usize],
}

static ROWS: [Row; 8] = [
    Row {
        input: &[(
            1,
            b"use a\r\nnope\r\nuse b\r\nput 0 0 1 1\r\naxxdelete 9\r\nuse\r\nuse tube-with-a-long-name\r\n",
        )],
        transcript: &[(
            1,
            b"USING a\r\nUNKNOWN_COMMAND\r\nUSING b\r\nEXPECTED_CRLF\r\nNOT_FOUND\r\nBAD_FORMAT\r\nUSING tube-with-a-long-name\r\n",
        )],
        end: End::Eof,
        piece_lens: &[1, 5, 4096],
    },
    // a line that is too long, and the next one
    Row {
        input: &[(300, b"a"), (1, b"\r\nlist-tube-used\r\n")],
        transcript: &[(1, b"BAD_FORMAT\r\nUSING default\r\n")],
        end: End::Eof,
        piece_lens: &[1, 4096],
    },
    // spaces make a line 224 bytes long, and a byte too long
    Row {
        input: &[(1, b"use a"), (217, b" "), (1, b"\r\n")],
        transcript: &[(1, b"USING a\r\n")],
        end: End::Eof,
        piece_lens: &[1, 4096],
    },
    Row {
        input: &[(1, b"use a"), (218, b" "), (1, b"\r\n")],
        transcript: &[(1, b"BAD_FORMAT\r\n")],
        end: End::Eof,
        piece_lens: &[1, 4096],
    },
    // lines of no command, bad numbers, and a good one
    Row {
        input: &[
            (1, b"\r\n delete 1\r\nPUT 0 0 1 1\r\ndelete 1\n\r\n"),
            (1, b"delete 18446744073709551616\r\ndelete 007\r\n"),
        ],
        transcript: &[
            (3, b"UNKNOWN_COMMAND\r\n"),
            (2, b"BAD_FORMAT\r\n"),
            (1, b"NOT_FOUND\r\n"),
        ],
        end: End::Eof,
        piece_lens: &[1, 4096],
    },
    // a body that is too large, and a quit
    Row {
        input: &[
            (1, b"put 0 0 1 65536\r\n"),
            (65_536, b"a"),
            (1, b"xyquit\r\n"),
        ],
        transcript: &[(1, b"JOB_TOO_BIG\r\n")],
        end: End::Quit,
        piece_lens: &[1, 97, 4096],
    },
    // a body that is too large and breaks off, and one that breaks off
    Row {
        input: &[(1, b"put 0 0 1 65536\r\n"), (100, b"a")],
        transcript: &[],
        end: End::Eof,
        piece_lens: &[1, 4096],
    },
    Row {
        input: &[(1, b"put 1 0 1 5\r\nhe")],
        transcript: &[],
        end: End::Eof,
        piece_lens: &[1, 4096],
    },
];

fn bytes_of(alloc: Global, parts: Parts) -> Result<Vec<u8>, AllocError> {
    let mut bytes = Vec::new(alloc);
    for (count, part) in parts {
        for _ in 0..*count {
            bytes.extend_from_slice(*part)?;
        }
    }
    Ok(bytes)
}

/// Gives the next bytes so often, and fails then. Before that it gives its lead, as many bytes at a time as are asked for.
#[derive(Drop)]
struct FailingReader<'a> {
    rest: &'a [u8],
    lead: usize,
    good_reads: usize,
    piece_len: usize,
}

impl Read for FailingReader<'_> {
    fn read(&mut self, buf: &mut [u8]) -> io::Result<usize> {
        let most = if self.lead > 0 {
            self.lead
        } else if self.good_reads > 0 {
            self.good_reads -= 1;
            self.piece_len
        } else {
            return Err(io::Error::from(ErrorKind::ConnectionReset));
        };
        let n = buf.len().min(self.rest.len()).min(most);
        let (piece, rest) = self.rest.split_at(n);
        buf[..n].copy_from_slice(piece);
        self.rest = rest;
        self.lead = self.lead.saturating_sub(n);
        Ok(n)
    }
}

/// What a writer does where it breaks off.
#[derive(Clone, Copy, Debug, PartialEq, Eq)]
enum Break {
    Fails,
    TakesNothing,
}

/// Keeps what is written so often, and breaks off then.
#[derive(Drop)]
struct BreakingWriter {
    bytes: Vec<u8>,
    good_writes: usize,
    piece_len: usize,
    breaks: Break,
}

impl Write for BreakingWriter {
    fn write(&mut self, buf: &[u8]) -> io::Result<usize> {
        if self.good_writes == 0 {
            return match self.breaks {
                Break::Fails => Err(io::Error::from(ErrorKind::BrokenPipe)),
                Break::TakesNothing => Ok(0),
            };
        }
        self.good_writes -= 1;
        let n = buf.len().min(self.piece_len);
        self.bytes.extend_from_slice(&buf[..n])?;
        Ok(n)
    }

    fn flush(&mut self) -> io::Result<()> {
        Ok(())
    }
}

/// A client, and what it is told where nothing breaks off.
#[derive(Drop)]
struct Client {
    input: Vec<u8>,
    transcript: Vec<u8>,
    end: End,
    piece_len: usize,
}

/// What came of a session.
#[derive(Drop)]
struct Served {
    end: Result<End, SessionFault>,
    written: Vec<u8>,
    /// How many writes there were.
    writes: usize,
    times_closed: u64,
}

impl Client {
    fn of(alloc: Global, row: &Row, piece_len: usize) -> Result<Client, AllocError> {
        Ok(Client {
            input: bytes_of(alloc, row.input)?,
            transcript: bytes_of(alloc, row.transcript)?,
            end: row.end,
            piece_len,
        })
    }

    /// How many reads there are: one a piece, and where its input ends one more that finds the end.
    fn reads(&self) -> usize {
        let last = usize::from(self.end == End::Eof);
        self.input
            .len()
            .div_ceil(self.piece_len.max(1))
            .saturating_add(last)
    }

    /// Serves it, where so many reads and writes are good. The first pieces, so many, are read as one.
    fn serve(
        &self,
        alloc: Global,
        joined: usize,
        good_reads: usize,
        good_writes: usize,
        breaks: Break,
    ) -> Served {
        let mut echo = Echo::new();
        let mut reader = Reading::new(FailingReader {
            rest: self.input.as_slice(),
            lead: joined.saturating_mul(self.piece_len),
            good_reads,
            piece_len: self.piece_len,
        });
        let mut kept = BreakingWriter {
            bytes: Vec::new(alloc),
            good_writes,
            piece_len: self.piece_len,
            breaks,
        };
        let mut writer = Writing::new(&mut kept);
        let end = serve(alloc, &mut reader, &mut writer, &mut echo);
        Served {
            end,
            written: kept.bytes,
            writes: good_writes.saturating_sub(kept.good_writes),
            times_closed: echo.times_closed,
        }
    }

    /// Whether it broke off so, within the transcript, and the service was closed once.
    fn broke_off(&self, served: &Served, fault: SessionFault) -> bool {
        served.end == Err(fault)
            && self.transcript.starts_with(served.written.as_slice())
            && served.times_closed == 1
    }

    /// Whether all was told, and the service was closed once.
    fn went_well(&self, served: &Served) -> bool {
        served.end == Ok(self.end) && served.written == self.transcript && served.times_closed == 1
    }

    /// Of the pieces before this read, how many are read as one.
    fn joined_before(&self, read: usize) -> usize {
        if self.reads() <= FEW_READS {
            return 0;
        }
        let pieces = self.input.len() / self.piece_len.max(1);
        read.saturating_sub(read % MOST_REPEATED).min(pieces)
    }

    /// Whether it goes so where the reads after so many of them fail.
    fn fails_after(&self, alloc: Global, good_reads: usize) -> bool {
        let joined = self.joined_before(good_reads);
        let repeated = good_reads.saturating_sub(joined);
        let served = self.serve(alloc, joined, repeated, usize::MAX, Break::Fails);
        if good_reads < self.reads() {
            self.broke_off(&served, SessionFault::ReadFailed)
        } else {
            self.went_well(&served)
        }
    }

    /// Whether it goes so where the writer breaks off after so many of its writes, which may be all.
    fn breaks_off_after(
        &self,
        alloc: Global,
        good_writes: usize,
        writes: usize,
        breaks: Break,
    ) -> bool {
        let served = self.serve(alloc, 0, usize::MAX, good_writes, breaks);
        if good_writes < writes {
            self.broke_off(&served, SessionFault::WriteFailed)
        } else {
            self.went_well(&served)
        }
    }

    /// How many writes there are where nothing breaks off. Then it goes well, and no write takes more than a piece.
    fn writes(&self, alloc: Global) -> Option<usize> {
        let whole = self.serve(alloc, 0, usize::MAX, usize::MAX, Break::Fails);
        let pieces = self.transcript.len().div_ceil(self.piece_len.max(1));
        if self.went_well(&whole) && whole.writes >= pieces {
            Some(whole.writes)
        } else {
            None
        }
    }

    /// Whether it is tried that the reads after so many fail.
    fn is_tried(&self, good_reads: usize) -> bool {
        let reads = self.reads();
        let is_near_an_end = good_reads < FIRST_AND_LAST
            || good_reads > reads.saturating_sub(FIRST_AND_LAST);
        reads <= FEW_READS || is_near_an_end || good_reads % EACH == 0
    }

    /// The first number of good reads after which it doesn't go so.
    fn first_wrong_read(&self, alloc: Global) -> Option<usize> {
        for read in 0..=self.reads() {
            if self.is_tried(read) && !self.fails_after(alloc, read) {
                return Some(read);
            }
        }
        None
    }

    /// The first number of good writes after which it doesn't go so.
    fn first_wrong_write(&self, alloc: Global, writes: usize, breaks: Break) -> Option<usize> {
        for write in 0..=writes {
            if !self.breaks_off_after(alloc, write, writes, breaks) {
                return Some(write);
            }
        }
        None
    }
}

fn wrong_read(alloc: Global, row: &Row, piece_len: usize) -> Result<Option<usize>, Fail> {
    let client = Client::of(alloc, row, piece_len)?;
    Ok(client.first_wrong_read(alloc))
}

fn wrong_write(
    alloc: Global,
    row: &Row,
    piece_len: usize,
    breaks: Break,
) -> Result<Option<usize>, Fail> {
    let client = Client::of(alloc, row, piece_len)?;
    let writes = client.writes(alloc).ok_or("not all was told")?;
    Ok(client.first_wrong_write(alloc, writes, breaks))
}

#[test]
fn a_reader_fails_at_its_reads(rt: HostRuntime) -> Result<(), Fail> {
    for (number, row) in ROWS.iter().enumerate() {
        for piece_len in row.piece_lens {
            let wrong = wrong_read(rt.alloc(), row, *piece_len)?;
            assert_eq!(rt; wrong, None, "row {number}, {piece_len} at a time");
        }
    }
    Ok(())
}

/// Of the two ways in which a writer breaks off, the first in which it doesn't go so, and after how many writes.
fn wrong_break(alloc: Global, row: &Row, piece_len: usize) -> Result<Option<(Break, usize)>, Fail> {
    for breaks in [Break::Fails, Break::TakesNothing] {
        if let Some(write) = wrong_write(alloc, row, piece_len, breaks)? {
            return Ok(Some((breaks, write)));
        }
    }
    Ok(None)
}

#[test]
fn a_writer_breaks_off_at_each_write(rt: HostRuntime) -> Result<(), Fail> {
    for (number, row) in ROWS.iter().enumerate() {
        for piece_len in row.piece_lens {
            let wrong = wrong_break(rt.alloc(), row, *piece_len)?;
            assert_eq!(rt; wrong, None, "row {number}, {piece_len} at a time");
        }
    }
    Ok(())
}
