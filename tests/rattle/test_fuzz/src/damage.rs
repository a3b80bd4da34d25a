//! What is done to good commands.
use crate::command_kind::{CommandKind, write_body};
use crate::draws::Draws;
use anyhow::Result;
use bean_codec::Profile;
use std::alloc::Global;
use std::io::Write;

// How many bytes are changed at most.
const CHANGES: usize = 8;

// How many bytes of a line are left out at most.
const LONGEST_CUT: usize = 6;

// How many scraps there are at most.
const SCRAPS: usize = 60;

/// Lets go of the bytes from a drawn place on.
pub fn break_off(bytes: &mut Vec<u8>, draws: &mut Draws) {
    if !bytes.is_empty() {
        let len = draws.below(bytes.len());
        bytes.truncate(len);
    }
}

/// Puts other bytes in some places.
pub fn change_bytes(bytes: &mut Vec<u8>, draws: &mut Draws) {
    for _ in 0..draws.up_to(CHANGES) {
        change_byte(bytes.as_mut_slice(), draws);
    }
}

fn change_byte(bytes: &mut [u8], draws: &mut Draws) {
    let byte = if draws.one_in(2) {
        draws.pick(b"\r\n 019-a")
    } else {
        draws.byte()
    };
    if !bytes.is_empty() {
        bytes[draws.below(bytes.len())] = byte;
    }
}

/// Copies a line, but for some bytes in a drawn place.
pub fn copy_with_cut(line: &[u8], draws: &mut Draws, out: &mut Vec<u8>) -> Result<()> {
    if line.is_empty() {
        return Ok(());
    }
    let (before, rest) = line.split_at(draws.below(line.len()));
    let cut = draws.up_to(LONGEST_CUT).min(rest.len());
    out.extend_from_slice(before)?;
    Ok(out.extend_from_slice(&rest[cut..])?)
}

/// A put whose line says one size and whose body has another; at times both are about the largest that there may be, and
/// the same.
pub fn add_wrong_body(draws: &mut Draws, out: &mut Vec<u8>) -> Result<()> {
    let (said, size) = if draws.one_in(64) {
        let size = 65_534 + draws.below(4);
        (size, size)
    } else {
        (draws.below(20), draws.below(20))
    };
    CommandKind::Put.write_words(draws, out)?;
    write!(out, " {said}\r\n")?;
    write_body(draws, size, out)?;
    Ok(out.extend_from_slice(b"\r\n")?)
}

// A scrap of a line.
fn scrap(profile: Profile, draws: &mut Draws) -> &'static str {
    match profile {
        Profile::Extended if draws.one_in(4) => draws.pick(&[
            "stats",
            "stats\r\n",
            "stats-job ",
            "stats-tube ",
            "reserve-job ",
            "-job",
            "default",
        ]),
        _ => draws.pick(&[
            "\r\n",
            "\r\n",
            "\r\n",
            "\r",
            "\n",
            " ",
            " ",
            "put 0 0 9 ",
            "put ",
            "use ",
            "a",
            "delete ",
            "1",
            "0",
            "65536",
            "4294967296",
            "reserve-with-timeout ",
            "reserve",
            "quit",
            "list-tubes",
            "-",
            "\0",
            "peek-ready",
        ]),
    }
}

/// Scraps of lines and other bytes, one after the other.
pub fn noise(alloc: Global, profile: Profile, draws: &mut Draws) -> Result<Vec<u8>> {
    let mut bytes = Vec::new(alloc);
    for _ in 0..draws.below(SCRAPS) {
        let scrap = scrap(profile, draws);
        bytes.extend_from_slice(scrap.as_bytes())?;
        if draws.one_in(8) {
            bytes.push(draws.byte())?;
        }
    }
    Ok(bytes)
}
