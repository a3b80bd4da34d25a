//! What a session does where its service refuses or stops.
use bean_words::{Name, Op, Reply};
use session::memory::{Ending, PieceReader, PieceWriter};
use session::{End, Service, ServiceFault, SessionFault, serve};
use std::alloc::Global;
use std::test::Fail;

/// A service that is asked to use these tubes in turn, and refuses where a tube has a fault.
#[derive(Drop)]
struct Tubes {
    expected: &'static [(&'static str, Option<ServiceFault>)],
    asked: usize,
    is_right: bool,
    closing: Result<(), ServiceFault>,
    times_closed: u64,
}

impl Tubes {
    // The next tube that is expected, where it is the one that is asked for.
    fn next(&mut self, op: Op) -> Result<Name, ServiceFault> {
        let expected = self.expected.get(self.asked);
        let (Op::Use(tube), Some((name, fault))) = (op, expected) else {
            self.is_right = false;
            return Err(ServiceFault::Stopped);
        };
        self.is_right = self.is_right && tube.as_slice() == name.as_bytes();
        self.asked = self.asked.saturating_add(1);
        match fault {
            Some(fault) => Err(*fault),
            None => Ok(tube),
        }
    }
}

impl Service for Tubes {
    ghost asks = { λ _ _ _ _. Unit {0} };

    ghost closes = { λ _ _ _. Unit {0} };

    fn ask(&mut self, op: Op) -> Result<Reply, ServiceFault> {
        Ok(Reply::Using(self.next(op)?))
    }

    fn close(&mut self) -> Result<(), ServiceFault> {
        self.times_closed = self.times_closed.saturating_add(1);
        self.closing
    }
}

/// A session, what its service does, and how it ends.
struct Row {
    input: &'static [u8],
    ending: Ending,
    asks: &'static [(&'static str, Option<ServiceFault>)],
    closing: Result<(), ServiceFault>,
    end: Result<End, SessionFault>,
    output: &'static [u8],
}

static ROWS: [Row; 5] = [
    // an ask that is refused is told, and the next one is answered
    Row {
        input: b"use a\r\nuse b\r\nuse c\r\n",
        ending: Ending::End,
        asks: &[("a", None), ("b", Some(ServiceFault::Refused)), ("c", None)],
        closing: Ok(()),
        end: Ok(End::Eof),
        output: b"USING a\r\nOUT_OF_MEMORY\r\nUSING c\r\n",
    },
    // a service that stops ends the session
    Row {
        input: b"use a\r\nuse b\r\nuse c\r\n",
        ending: Ending::End,
        asks: &[("a", None), ("b", Some(ServiceFault::Stopped))],
        closing: Ok(()),
        end: Err(SessionFault::ServiceStopped),
        output: b"USING a\r\n",
    },
    // a close that is refused is told
    Row {
        input: b"use a\r\n",
        ending: Ending::End,
        asks: &[("a", None)],
        closing: Err(ServiceFault::Refused),
        end: Err(SessionFault::OutOfMemory),
        output: b"USING a\r\n",
    },
    Row {
        input: b"use a\r\n",
        ending: Ending::End,
        asks: &[("a", None)],
        closing: Err(ServiceFault::Stopped),
        end: Err(SessionFault::ServiceStopped),
        output: b"USING a\r\n",
    },
    // another fault comes before it
    Row {
        input: b"use a\r\n",
        ending: Ending::Failure,
        asks: &[("a", None)],
        closing: Err(ServiceFault::Refused),
        end: Err(SessionFault::ReadFailed),
        output: b"USING a\r\n",
    },
];

/// Whether the session goes as its row says, asks for all of it, and closes the service once.
fn is_right(alloc: Global, row: &Row, piece_len: usize) -> bool {
    let mut tubes = Tubes {
        expected: row.asks,
        asked: 0,
        is_right: true,
        closing: row.closing,
        times_closed: 0,
    };
    let mut reader = PieceReader::new(row.input, piece_len, row.ending);
    let mut writer = PieceWriter::new(alloc, 5, 1000);
    let end = serve(alloc, &mut reader, &mut writer, &mut tubes);
    end == row.end
        && writer.bytes() == row.output
        && tubes.is_right
        && tubes.asked == row.asks.len()
        && tubes.times_closed == 1
}

#[test]
fn sessions_end_so(rt: HostRuntime) {
    for row in &ROWS {
        for piece_len in [1, 7, 4096] {
            let right = is_right(rt.alloc(), row, piece_len);
            assert!(rt; right, "{:?} {piece_len}", row.input);
        }
    }
}
