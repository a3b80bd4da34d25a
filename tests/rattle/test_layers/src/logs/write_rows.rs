//! What is written to a disk, and what isn't where it fails.
use crate::logs::disk::Disk;
use crate::logs::text::{ENDS, TEXT, commands};
use ballot::Members;
use bean_words::Op;
use log_file::{KeepFault, LogWriter, NoteFault, read_log};
use object::Command;
use std::alloc::Global;
use std::io::ErrorKind;
use std::test::Fail;

// No call has this number.
const NEVER: usize = 1_000_000;

// A log of three members on this disk, with nothing noted.
fn begin(alloc: Global, disk: Disk) -> Result<LogWriter<Disk>, Fail> {
    let members = Members::new(3).ok_or("no members")?;
    Ok(LogWriter::begin(alloc, disk, members)?)
}

// Notes these, and keeps them. It answers whether that went well.
fn keep_these(log: &mut LogWriter<Disk>, commands: &[Command<Op>]) -> Result<bool, Fail> {
    for command in commands {
        log.note(command)?;
    }
    Ok(log.keep().is_ok())
}

// Keeps the head, then the first command, then the others, as far as the disk takes them. It answers how many commands
// were kept.
fn keep_by_turns(alloc: Global, log: &mut LogWriter<Disk>) -> Result<usize, Fail> {
    let commands = commands(alloc)?;
    let mut kept = 0;
    for (first, last) in [(0, 0), (0, 1), (1, 3)] {
        let turn = commands.as_slice().get(first..last).unwrap_or(&[]);
        if !keep_these(log, turn)? {
            break;
        }
        kept = last;
    }
    Ok(kept)
}

#[test]
fn nothing_is_written_before_it_is_kept(rt: HostRuntime) -> Result<(), Fail> {
    for piece_len in [1, 7, 5000] {
        let disk = Disk::new(rt.alloc(), piece_len, NEVER, ErrorKind::Other);
        let mut log = begin(rt.alloc(), disk)?;
        for command in commands(rt.alloc())?.as_slice() {
            log.note(command)?;
        }
        assert!(rt; log.has_batch());
        assert_eq!(rt; log.writer().calls(), 0);
        log.keep()?;
        assert!(rt; !log.has_batch() && !log.has_failed());
        assert_eq!(rt; log.writer().bytes(), TEXT);
        assert_eq!(rt; log.writer().kept(), TEXT);
        let calls = log.writer().calls();
        log.keep()?;
        assert_eq!(rt; log.writer().calls(), calls);
    }
    Ok(())
}

#[test]
fn a_log_goes_on_behind_what_was_kept(rt: HostRuntime) -> Result<(), Fail> {
    let mut head = TEXT.get(..ENDS[0]).ok_or("no head")?;
    let chain = read_log(rt.alloc(), &mut head)?.whole.chain;
    let disk = Disk::new(rt.alloc(), 9, NEVER, ErrorKind::Other);
    let mut log = LogWriter::resume(rt.alloc(), disk, 0, chain);
    assert!(rt; !log.has_batch());
    let commands = commands(rt.alloc())?;
    assert!(rt; keep_these(&mut log, commands.as_slice().get(..1).unwrap_or(&[]))?);
    assert_eq!(rt; Some(log.writer().bytes()), TEXT.get(ENDS[0]..ENDS[1]));
    Ok(())
}

// Whether a log that has failed takes nothing more.
fn takes_nothing(log: &mut LogWriter<Disk>, commands: &[Command<Op>]) -> bool {
    let calls = log.writer().calls();
    for command in commands {
        if !matches!(log.note(command), Err(NoteFault::HasFailed)) {
            return false;
        }
    }
    let is_refused = matches!(log.keep(), Err(KeepFault::HasFailed));
    is_refused && log.writer().calls() == calls
}

// Whether so many commands at least are read from the disk, which has a beginning of the text.
fn has_kept(alloc: Global, disk: &Disk, kept: usize) -> bool {
    let mut bytes = disk.bytes();
    if bytes.len() < ENDS[0] {
        return kept == 0 && TEXT.starts_with(bytes);
    }
    let is_begun = TEXT.starts_with(bytes);
    match read_log(alloc, &mut bytes) {
        Ok(recovered) => is_begun && recovered.commands.len() >= kept,
        Err(_) => false,
    }
}

#[test]
fn a_failure_at_any_call_is_the_end(rt: HostRuntime) -> Result<(), Fail> {
    let commands = commands(rt.alloc())?;
    for failing in 0..15 {
        let disk = Disk::new(rt.alloc(), 10, failing, ErrorKind::StorageFull);
        let mut log = begin(rt.alloc(), disk)?;
        let kept = keep_by_turns(rt.alloc(), &mut log)?;
        assert!(rt; log.has_failed(), "call {failing}");
        assert_eq!(rt; log.writer().calls(), failing + 1);
        assert!(rt;
            takes_nothing(&mut log, commands.as_slice()),
            "call {failing}"
        );
        assert!(rt; has_kept(rt.alloc(), log.writer(), kept), "call {failing}");
    }
    Ok(())
}

#[test]
fn a_failure_is_told(rt: HostRuntime) -> Result<(), Fail> {
    for (failing, is_write) in [(0, true), (1, true), (2, false)] {
        let disk = Disk::new(rt.alloc(), 10, failing, ErrorKind::StorageFull);
        let mut log = begin(rt.alloc(), disk)?;
        let told = match log.keep() {
            Err(KeepFault::WriteFailed(e)) => e.kind() == ErrorKind::StorageFull && is_write,
            Err(KeepFault::SyncFailed(e)) => e.kind() == ErrorKind::StorageFull && !is_write,
            _ => false,
        };
        assert!(rt; told, "call {failing}");
    }
    Ok(())
}

#[test]
fn an_interrupted_write_is_tried_again(rt: HostRuntime) -> Result<(), Fail> {
    // Each of these calls is a write: two of the head, three of the first command, seven of the others.
    for failing in [0, 1, 3, 4, 5, 7, 8, 9, 10, 11, 12, 13] {
        let disk = Disk::new(rt.alloc(), 10, failing, ErrorKind::Interrupted);
        let mut log = begin(rt.alloc(), disk)?;
        let kept = keep_by_turns(rt.alloc(), &mut log)?;
        assert_eq!(rt; kept, 3);
        assert_eq!(rt; log.writer().kept(), TEXT);
    }
    Ok(())
}

#[test]
fn a_disk_of_another_size_is_noticed(rt: HostRuntime) -> Result<(), Fail> {
    let mut head = TEXT.get(..ENDS[0]).ok_or("no head")?;
    let chain = read_log(rt.alloc(), &mut head)?.whole.chain;
    let commands = commands(rt.alloc())?;
    for len in [1, 20, 1000] {
        // it is empty, though the log has so many bytes
        let disk = Disk::new(rt.alloc(), 5000, NEVER, ErrorKind::Other);
        let mut log = LogWriter::resume(rt.alloc(), disk, len, chain);
        for command in commands.as_slice() {
            log.note(command)?;
        }
        assert!(rt; matches!(log.keep(), Err(KeepFault::Changed)), "{len}");
        assert!(rt; takes_nothing(&mut log, commands.as_slice()), "{len}");
    }
    Ok(())
}

#[test]
fn a_disk_that_takes_nothing_has_failed(rt: HostRuntime) -> Result<(), Fail> {
    let disk = Disk::new(rt.alloc(), 0, NEVER, ErrorKind::Other);
    let mut log = begin(rt.alloc(), disk)?;
    assert!(rt; matches!(log.keep(), Err(KeepFault::WriteFailed(_))));
    Ok(())
}
