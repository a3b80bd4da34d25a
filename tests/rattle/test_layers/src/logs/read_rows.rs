//! What is read of a log's text, wherever it ends.
use crate::logs::text::{ENDS, TEXT, lines_within};
use command_log::LogFault;
use log_file::{ReadFault, read_log};
use std::alloc::Global;
use std::io;
use std::io::{ErrorKind, Read};
use std::test::Fail;

// Fails at each read.
#[derive(Drop)]
struct Broken;

impl Read for Broken {
    fn read(&mut self, _buf: &mut [u8]) -> io::Result<usize> {
        Err(io::Error::from(ErrorKind::TimedOut))
    }
}

#[test]
fn a_log_is_read_wherever_it_is_cut(rt: HostRuntime) -> Result<(), Fail> {
    for len in 0..=TEXT.len() {
        let mut rest = TEXT.get(..len).ok_or("no text")?;
        match read_log(rt.alloc(), &mut rest) {
            Ok(recovered) => {
                let lines = lines_within(len);
                assert_eq!(rt; recovered.commands.len() + 1, lines, "{len}");
                assert_eq!(rt;
                    recovered.whole.bytes + recovered.behind,
                    len as u64,
                    "{len}"
                );
                assert_eq!(rt; recovered.whole.members.weights(), [1, 1, 1].as_slice());
            }
            Err(ReadFault::NoLog(LogFault::Unbegun)) => assert!(rt; len < ENDS[0], "{len}"),
            Err(_) => return Err(Fail::new("another fault")),
        }
    }
    Ok(())
}

#[test]
fn a_reader_that_breaks_off_gives_no_log(rt: HostRuntime) -> Result<(), Fail> {
    for len in [0, 10, ENDS[0], 50, TEXT.len()] {
        let first = TEXT.get(..len).ok_or("no text")?;
        let told = match read_log(rt.alloc(), &mut first.chain(Broken)) {
            Err(ReadFault::ReadFailed(e)) => e.kind() == ErrorKind::TimedOut,
            _ => false,
        };
        assert!(rt; told, "{len}");
    }
    Ok(())
}

#[test]
fn what_is_no_log_is_told(rt: HostRuntime) -> Result<(), Fail> {
    let bad = read_log(rt.alloc(), &mut b"beanpax-dump 1\n".as_slice());
    assert!(rt; matches!(bad, Err(ReadFault::NoLog(LogFault::BadHead))));
    let damaged: &[u8] = b"beanpax-log 1 1\n0 5 tick 562a2e4d\n2 3 close d8945d41\n";
    let told = read_log(rt.alloc(), &mut &*damaged);
    assert!(rt; matches!(told, Err(ReadFault::NoLog(LogFault::Damaged(2)))));
    Ok(())
}

// The text without the line that ends there, or with another line in its place.
fn with_line(alloc: Global, from: usize, to: usize, line: &[u8]) -> Result<Vec<u8>, Fail> {
    let mut text = Vec::new(alloc);
    text.extend_from_slice(TEXT.get(..from).ok_or("no beginning")?)?;
    text.extend_from_slice(line)?;
    text.extend_from_slice(TEXT.get(to..).ok_or("no end")?)?;
    Ok(text)
}

// The line at which the text is told to be damaged, 0 where it isn't.
fn damaged_line(alloc: Global, text: &[u8]) -> u64 {
    let mut rest = text;
    match read_log(alloc, &mut rest) {
        Err(ReadFault::NoLog(LogFault::Damaged(line))) => line,
        _ => 0,
    }
}

#[test]
fn a_line_that_was_left_out_doubled_or_moved_is_damage(rt: HostRuntime) -> Result<(), Fail> {
    let alloc = rt.alloc();
    let [head, first, second, third] = ENDS;
    let without_first = with_line(alloc, head, first, b"")?;
    assert_eq!(rt; damaged_line(alloc, without_first.as_slice()), 2);
    let without_second = with_line(alloc, first, second, b"")?;
    assert_eq!(rt; damaged_line(alloc, without_second.as_slice()), 3);
    let line = TEXT.get(first..second).ok_or("no line")?;
    let doubled = with_line(alloc, second, second, line)?;
    assert_eq!(rt; damaged_line(alloc, doubled.as_slice()), 4);
    let mut swapped = with_line(alloc, first, second, b"")?;
    swapped.extend_from_slice(line)?;
    assert_eq!(rt; damaged_line(alloc, swapped.as_slice()), 3);
    let without_last = with_line(alloc, second, third, b"")?;
    assert_eq!(rt; damaged_line(alloc, without_last.as_slice()), 0);
    Ok(())
}

// The text with this digit in place of its head's version.
fn with_version(alloc: Global, text: &[u8], digit: u8) -> Result<Vec<u8>, Fail> {
    let mut changed = Vec::new(alloc);
    changed.extend_from_slice(b"beanpax-log ")?;
    changed.push(digit)?;
    changed.extend_from_slice(text.get(13..).ok_or("no head")?)?;
    Ok(changed)
}

#[test]
fn lines_behind_the_head_of_another_version_are_damage(rt: HostRuntime) -> Result<(), Fail> {
    let alloc = rt.alloc();
    let one = with_version(alloc, TEXT, b'1')?;
    assert_eq!(rt; damaged_line(alloc, one.as_slice()), 2);
    let first: &[u8] = b"beanpax-log 1 1\n0 5 tick 562a2e4c\n2 3 close d8945d41\n";
    let read = read_log(alloc, &mut &*first)?;
    assert_eq!(rt; read.commands.len(), 2);
    let two = with_version(alloc, first, b'2')?;
    assert_eq!(rt; damaged_line(alloc, two.as_slice()), 2);
    let head = with_version(alloc, TEXT.get(..ENDS[0]).ok_or("no head")?, b'1')?;
    assert_eq!(rt; damaged_line(alloc, head.as_slice()), 0);
    Ok(())
}

#[test]
fn a_log_of_many_pieces_is_read(rt: HostRuntime) -> Result<(), Fail> {
    let mut text = Vec::new(rt.alloc());
    text.extend_from_slice(b"beanpax-log 1 1 1 1\n")?;
    for _ in 0..20_000 {
        text.extend_from_slice(b"0 5 tick 562a2e4c\n")?;
    }
    text.extend_from_slice(b"0 5 ti")?;
    let recovered = read_log(rt.alloc(), &mut text.as_slice())?;
    assert_eq!(rt; recovered.commands.len(), 20_000);
    assert_eq!(rt; recovered.whole.lines, 20_001);
    assert_eq!(rt; recovered.whole.bytes, 360_020);
    assert_eq!(rt; recovered.behind, 6);
    Ok(())
}
