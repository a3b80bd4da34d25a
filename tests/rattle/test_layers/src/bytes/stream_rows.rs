//! Streams that go in pieces, fail or are interrupted.
use session::memory::PieceWriter;
use session::{ByteIn, ByteOut, Failed, Reading, Writing, write_all};
use std::alloc::Global;
use std::io;
use std::io::{ErrorKind, Read, Write};
use std::test::Fail;

const TEXT: &[u8; 13] = b"reserve\r\nquit";

#[test]
fn writes_all_in_pieces(rt: HostRuntime) -> Result<(), Fail> {
    for piece_len in [1, 4, 13, 5000] {
        let mut writer = PieceWriter::new(rt.alloc(), piece_len, 100);
        write_all(&mut writer, TEXT).ok().ok_or("failed")?;
        assert_eq!(rt; writer.bytes(), TEXT.as_slice());
    }
    Ok(())
}

#[test]
fn a_failed_writer_has_a_beginning(rt: HostRuntime) -> Result<(), Fail> {
    let mut writer = PieceWriter::new(rt.alloc(), 4, 6);
    assert_eq!(rt; write_all(&mut writer, TEXT), Err(Failed));
    assert_eq!(rt; writer.bytes(), b"reserv".as_slice());
    assert_eq!(rt; write_all(&mut writer, b"x"), Err(Failed));
    Ok(())
}

/// So many interruptions come in a row.
const INTERRUPTIONS: u32 = 10;

// Is interrupted so often before each call, and fails where `room` bytes were moved.
#[derive(Drop)]
struct Shaky {
    bytes: Vec<u8>,
    room: usize,
    interrupted: u32,
}

impl Shaky {
    fn new(alloc: Global, room: usize) -> Shaky {
        Shaky {
            bytes: Vec::new(alloc),
            room,
            interrupted: 0,
        }
    }

    fn is_next_interrupted(&mut self) -> bool {
        if self.interrupted < INTERRUPTIONS {
            self.interrupted += 1;
            return true;
        }
        self.interrupted = 0;
        false
    }
}

impl Read for Shaky {
    fn read(&mut self, buf: &mut [u8]) -> io::Result<usize> {
        if self.is_next_interrupted() {
            return Err(io::Error::from(ErrorKind::Interrupted));
        }
        if self.room == 0 {
            return Err(io::Error::from(ErrorKind::BrokenPipe));
        }
        if buf.is_empty() {
            return Ok(0);
        }
        buf[0] = b'x';
        self.room -= 1;
        Ok(1)
    }
}

impl Write for Shaky {
    fn write(&mut self, buf: &[u8]) -> io::Result<usize> {
        if self.is_next_interrupted() {
            return Err(io::Error::from(ErrorKind::Interrupted));
        }
        let n = buf.len().min(self.room).min(2);
        self.bytes.extend_from_slice(&buf[..n])?;
        self.room -= n;
        Ok(n)
    }

    fn flush(&mut self) -> io::Result<()> {
        Ok(())
    }
}

#[test]
fn an_interrupted_read_is_tried_again(rt: HostRuntime) -> Result<(), Fail> {
    let mut reader = Reading::new(Shaky::new(rt.alloc(), 2));
    let mut buf = [0; 8];
    assert_eq!(rt; reader.read(&mut buf), Ok(1));
    assert_eq!(rt; reader.read(&mut buf), Ok(1));
    assert_eq!(rt; reader.read(&mut buf), Err(Failed));
    assert_eq!(rt; reader.read(&mut buf), Err(Failed));
    Ok(())
}

#[test]
fn an_interrupted_write_is_tried_again(rt: HostRuntime) -> Result<(), Fail> {
    let mut shaky = Shaky::new(rt.alloc(), 7);
    let mut writer = Writing::new(&mut shaky);
    assert_eq!(rt; write_all(&mut writer, b"reser"), Ok(()));
    assert_eq!(rt; write_all(&mut writer, b"ve\r\n"), Err(Failed));
    assert_eq!(rt; writer.write(b"x"), Err(Failed));
    assert_eq!(rt; shaky.bytes.as_slice(), b"reserve".as_slice());
    Ok(())
}
