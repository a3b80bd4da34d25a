//! Logs in files.
use crate::logs::text::{ENDS, TEXT, commands, lines_within};
use ballot::Members;
use command_log::LogFault;
use log_file::{KeepFault, OpenFault, ReadFault, open_log};
use std::fs;
use std::fs::File;
use std::os::unix::fs::MetadataExt;
use std::rt::Files;
use std::test::Fail;

#[test]
fn a_new_log_is_its_owners_alone(rt: HostRuntime) -> Result<(), Fail> {
    let members = Members::new(3).ok_or("no members")?;
    let opened = open_log(&rt, "new.log", members)?;
    let mode = fs::metadata(&rt, "new.log")?.mode();
    let text = fs::read(&rt, "new.log")?;
    fs::remove_file(&rt, "new.log")?;
    assert_eq!(rt; mode & 0o777, 0o600);
    assert_eq!(rt; Some(text.as_slice()), TEXT.get(..ENDS[0]));
    assert_eq!(rt; opened.cut, 0);
    assert!(rt; opened.commands.is_empty());
    Ok(())
}

#[test]
fn a_log_is_opened_again(rt: HostRuntime) -> Result<(), Fail> {
    let mut opened = open_log(&rt, "again.log", Members::new(3).ok_or("no members")?)?;
    for command in commands(rt.alloc())?.as_slice() {
        opened.log.note(command)?;
        opened.log.keep()?;
    }
    drop(opened);
    // Others than those of the head are not looked at.
    let again = open_log(&rt, "again.log", Members::new(1).ok_or("no members")?)?;
    let text = fs::read(&rt, "again.log")?;
    fs::remove_file(&rt, "again.log")?;
    assert_eq!(rt; text.as_slice(), TEXT);
    assert_eq!(rt; again.members.weights(), [1, 1, 1].as_slice());
    assert!(rt; again.commands.as_slice() == commands(rt.alloc())?.as_slice());
    assert_eq!(rt; again.cut, 0);
    Ok(())
}

// Opens a log that was torn behind so many bytes, and writes it to its end. It answers how many commands it had, and how
// many bytes were cut off.
fn mend<R: Files<File = File> + AllocGlobal>(rt: &R, len: usize) -> Result<(usize, u64), Fail> {
    fs::write(rt, "torn.log", TEXT.get(..len).ok_or("no text")?)?;
    let members = Members::new(3).ok_or("no members")?;
    let mut opened = open_log(rt, "torn.log", members)?;
    let had = opened.commands.len();
    let all = commands(rt.alloc())?;
    for command in all.as_slice().get(had..).unwrap_or(&[]) {
        opened.log.note(command)?;
    }
    opened.log.keep()?;
    Ok((had, opened.cut))
}

#[test]
fn a_torn_log_goes_on(rt: HostRuntime) -> Result<(), Fail> {
    for len in 0..TEXT.len() {
        let (had, cut) = mend(&rt, len)?;
        let lines = lines_within(len);
        let end = ENDS.iter().take(lines).max().copied().unwrap_or(0);
        assert_eq!(rt; had, lines.saturating_sub(1), "{len}");
        assert_eq!(rt; cut, len.saturating_sub(end) as u64, "{len}");
        assert_eq!(rt; fs::read(&rt, "torn.log")?.as_slice(), TEXT, "{len}");
    }
    fs::remove_file(&rt, "torn.log")?;
    Ok(())
}

#[test]
fn a_damaged_log_is_left_as_it_is(rt: HostRuntime) -> Result<(), Fail> {
    let members = Members::new(3).ok_or("no members")?;
    for at in ENDS[0]..ENDS[2] - 1 {
        let mut text = Vec::new(rt.alloc());
        text.extend_from_slice(TEXT)?;
        if let Some(byte) = text.as_mut_slice().get_mut(at) {
            *byte ^= 1;
        }
        fs::write(&rt, "damaged.log", text.as_slice())?;
        let told = match open_log(&rt, "damaged.log", members) {
            Err(OpenFault::Unread(ReadFault::NoLog(LogFault::Damaged(line)))) => line,
            _ => 0,
        };
        let left = fs::read(&rt, "damaged.log")?;
        assert_eq!(rt; told, if at < ENDS[1] { 2 } else { 3 }, "{at}");
        assert!(rt; left == text, "{at}");
    }
    fs::remove_file(&rt, "damaged.log")?;
    Ok(())
}

#[test]
fn another_file_is_left_as_it_is(rt: HostRuntime) -> Result<(), Fail> {
    let members = Members::new(3).ok_or("no members")?;
    fs::write(&rt, "other.log", b"beanpax-dump 1\n")?;
    let told = open_log(&rt, "other.log", members);
    let left = fs::read(&rt, "other.log")?;
    fs::remove_file(&rt, "other.log")?;
    assert!(rt;
        matches!(
            told,
            Err(OpenFault::Unread(ReadFault::NoLog(LogFault::BadHead)))
        )
    );
    assert_eq!(rt; left.as_slice(), b"beanpax-dump 1\n".as_slice());
    Ok(())
}

#[test]
fn a_text_that_begins_as_a_head_does_is_left_as_it_is(rt: HostRuntime) -> Result<(), Fail> {
    let members = Members::new(3).ok_or("no members")?;
    fs::write(&rt, "notes.log", b"beanpax-log 1 my notes")?;
    let told = open_log(&rt, "notes.log", members);
    let left = fs::read(&rt, "notes.log")?;
    fs::remove_file(&rt, "notes.log")?;
    assert!(rt;
        matches!(
            told,
            Err(OpenFault::Unread(ReadFault::NoLog(LogFault::BadHead)))
        )
    );
    assert_eq!(rt; left.as_slice(), b"beanpax-log 1 my notes".as_slice());
    Ok(())
}

#[test]
fn a_file_that_another_cut_off_is_noticed(rt: HostRuntime) -> Result<(), Fail> {
    let mut opened = open_log(&rt, "cut.log", Members::new(3).ok_or("no members")?)?;
    let commands = commands(rt.alloc())?;
    opened
        .log
        .note(commands.as_slice().first().ok_or("no command")?)?;
    opened.log.keep()?;
    fs::write(&rt, "cut.log", b"")?;
    opened
        .log
        .note(commands.as_slice().get(1).ok_or("no command")?)?;
    let told = opened.log.keep();
    fs::remove_file(&rt, "cut.log")?;
    assert!(rt; matches!(told, Err(KeepFault::Changed)));
    Ok(())
}

#[test]
fn a_device_is_no_log(rt: HostRuntime) -> Result<(), Fail> {
    let members = Members::new(3).ok_or("no members")?;
    let told = open_log(&rt, "/dev/null", members);
    assert!(rt; matches!(told, Err(OpenFault::NotAFile)));
    Ok(())
}

#[test]
fn a_log_is_opened_by_one_alone(rt: HostRuntime) -> Result<(), Fail> {
    let members = Members::new(3).ok_or("no members")?;
    let first = open_log(&rt, "locked.log", members)?;
    let second = open_log(&rt, "locked.log", members);
    drop(first);
    let third = open_log(&rt, "locked.log", members);
    fs::remove_file(&rt, "locked.log")?;
    assert!(rt; matches!(second, Err(OpenFault::Locked)));
    assert!(rt; third.is_ok());
    Ok(())
}

#[test]
fn a_log_without_a_folder_is_not_opened(rt: HostRuntime) -> Result<(), Fail> {
    let members = Members::new(3).ok_or("no members")?;
    let told = open_log(&rt, "no_such_folder/some.log", members);
    assert!(rt; matches!(told, Err(OpenFault::FileFailed(_))));
    Ok(())
}
