//! Logs on disks whose lock is ours, or another's.
use crate::logs::disk::Disk;
use crate::logs::text::{TEXT, commands};
use ballot::Members;
use log_file::{Locked, OpenFault, ReadFault, open_in};
use std::alloc::Global;
use std::io::{ErrorKind, Write};
use std::test::Fail;

// No call has this number.
const NEVER: usize = 1_000_000;

// A disk that has these bytes.
fn disk_of(alloc: Global, bytes: &[u8]) -> Result<Disk, Fail> {
    let mut disk = Disk::new(alloc, 5000, NEVER, ErrorKind::Other);
    disk.write_all(bytes)?;
    Ok(disk)
}

// This disk, whose lock is ours.
fn locked(disk: Disk) -> Result<Locked<Disk>, Fail> {
    match Locked::lock(disk) {
        Ok(locked) => Ok(locked),
        Err(_) => Err(Fail::new("not locked")),
    }
}

#[test]
fn a_disk_whose_lock_another_has_is_handed_back_untouched(rt: HostRuntime) -> Result<(), Fail> {
    let disk = disk_of(rt.alloc(), TEXT)?.held_by_another();
    let calls = disk.calls();
    match Locked::lock(disk) {
        Ok(_) => return Err(Fail::new("locked")),
        Err(unlocked) => {
            assert!(rt; matches!(unlocked.fault, OpenFault::Locked));
            assert_eq!(rt; unlocked.file.bytes(), TEXT);
            assert_eq!(rt; unlocked.file.calls(), calls);
        }
    }
    Ok(())
}

#[test]
fn a_log_on_a_disk_goes_on_without_its_torn_end(rt: HostRuntime) -> Result<(), Fail> {
    let members = Members::new(1).ok_or("no members")?;
    let mut disk = disk_of(rt.alloc(), TEXT)?;
    disk.write_all(b"2 4 cl")?;
    let opened = open_in(rt.alloc(), locked(disk)?, members)?;
    assert_eq!(rt; opened.cut, 6);
    assert_eq!(rt; opened.commands.len(), 3);
    assert_eq!(rt; opened.members.weights(), [1, 1, 1].as_slice());
    let mut log = opened.log;
    for command in commands(rt.alloc())?.as_slice() {
        log.note(command)?;
    }
    log.keep()?;
    Ok(())
}

#[test]
fn a_log_begins_on_an_empty_disk(rt: HostRuntime) -> Result<(), Fail> {
    let members = Members::new(3).ok_or("no members")?;
    let opened = open_in(rt.alloc(), locked(disk_of(rt.alloc(), b"")?)?, members)?;
    assert_eq!(rt; opened.cut, 0);
    assert!(rt; opened.commands.is_empty());
    Ok(())
}

#[test]
fn what_is_no_log_on_a_disk_is_told(rt: HostRuntime) -> Result<(), Fail> {
    let members = Members::new(3).ok_or("no members")?;
    let told = open_in(
        rt.alloc(),
        locked(disk_of(rt.alloc(), b"my notes\n")?)?,
        members,
    );
    assert!(rt; matches!(told, Err(OpenFault::Unread(ReadFault::NoLog(_)))));
    Ok(())
}
