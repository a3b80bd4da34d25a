//! Reading replies, by the protocol's text alone: it shares nothing with what writes them.
use crate::head::Head;
use crate::report_reader::report_of;
use std::alloc::{AllocError, Global};

/// The heads of the replies that a text is made of, or none where it isn't whole replies one after the other.
pub fn heads_of(alloc: Global, text: &[u8]) -> Result<Option<Vec<Head>>, AllocError> {
    let mut heads = Vec::new(alloc);
    let mut rest = text;
    // a reply takes one byte at least
    for _ in 0..text.len() {
        if rest.is_empty() {
            break;
        }
        let Some((head, after)) = first_reply(rest) else {
            return Ok(None);
        };
        heads.push(head)?;
        rest = after;
    }
    Ok(rest.is_empty().then_some(heads))
}

// The reply in front, and what follows it.
fn first_reply(text: &[u8]) -> Option<(Head, &[u8])> {
    let end = text.iter().position(|byte| *byte == b'\n')?;
    let (line, after) = text.split_at_checked(end)?;
    let line = str::from_utf8(line.strip_suffix(b"\r")?).ok()?;
    let after = after.strip_prefix(b"\n")?;
    match line.split_once(' ') {
        Some((word, rest)) => long_reply(word, rest, after),
        None => Some((one_word(line)?, after)),
    }
}

// The reply of one word alone.
fn one_word(word: &str) -> Option<Head> {
    Some(match word {
        "NOT_IGNORED" => Head::NotIgnored,
        "DEADLINE_SOON" => Head::DeadlineSoon,
        "TIMED_OUT" => Head::TimedOut,
        "DELETED" => Head::Deleted,
        "NOT_FOUND" => Head::NotFound,
        "RELEASED" => Head::Released,
        "BURIED" => Head::Buried,
        "TOUCHED" => Head::Touched,
        "KICKED" => Head::Kicked,
        "PAUSED" => Head::Paused,
        "BAD_FORMAT" => Head::BadFormat,
        "UNKNOWN_COMMAND" => Head::UnknownCommand,
        "EXPECTED_CRLF" => Head::ExpectedCrlf,
        "JOB_TOO_BIG" => Head::JobTooBig,
        _ => return None,
    })
}

// The reply of a word, of what follows it on its line, and of what may follow the line.
fn long_reply<'a>(word: &str, rest: &str, after: &'a [u8]) -> Option<(Head, &'a [u8])> {
    match word {
        "INSERTED" => counted(Head::Inserted, rest, after),
        "WATCHING" => counted(Head::Watching, rest, after),
        "KICKED" => counted(Head::KickedCount, rest, after),
        "USING" => is_name(rest).then_some((Head::Using, after)),
        "RESERVED" => job(Head::Reserved, rest, after),
        "FOUND" => job(Head::Found, rest, after),
        "OK" => data(rest, after),
        _ => None,
    }
}

fn counted<'a>(head: Head, count: &str, after: &'a [u8]) -> Option<(Head, &'a [u8])> {
    number(count)?;
    Some((head, after))
}

// An id and a size, and a body behind the line.
fn job<'a>(head: Head, rest: &str, after: &'a [u8]) -> Option<(Head, &'a [u8])> {
    let (id, size) = rest.split_once(' ')?;
    number(id)?;
    let (_, after) = block(size, after)?;
    Some((head, after))
}

// A size, and a list of tubes or a report behind the line.
fn data<'a>(size: &str, after: &'a [u8]) -> Option<(Head, &'a [u8])> {
    let (text, after) = block(size, after)?;
    let head = told_by(str::from_utf8(text).ok()?)?;
    Some((head, after))
}

// What the lines behind a line of three hyphens tell.
fn told_by(text: &str) -> Option<Head> {
    let lines = text.strip_prefix("---\n")?;
    if !lines.ends_with('\n') {
        return None;
    }
    if lines.split_terminator('\n').all(is_item) {
        Some(Head::Tubes)
    } else {
        report_of(lines)
    }
}

// So many bytes with the end of a line, and what follows.
fn block<'a>(size: &str, text: &'a [u8]) -> Option<(&'a [u8], &'a [u8])> {
    let size = usize::try_from(number(size)?).ok()?;
    let (bytes, after) = text.split_at_checked(size)?;
    Some((bytes, after.strip_prefix(b"\r\n")?))
}

/// A number without leading zeros.
pub fn number(word: &str) -> Option<u64> {
    let is_plain = word.bytes().all(|byte| byte.is_ascii_digit());
    if !is_plain || (word.len() > 1 && word.starts_with('0')) {
        return None;
    }
    word.parse::<u64>().ok()
}

// The name of a tube in a list.
fn is_item(line: &str) -> bool {
    line.strip_prefix("- ").is_some_and(is_name)
}

/// Whether a tube may have the name.
pub fn is_name(word: &str) -> bool {
    (1..=200).contains(&word.len()) && !word.starts_with('-') && word.bytes().all(is_name_byte)
}

fn is_name_byte(byte: u8) -> bool {
    byte.is_ascii_alphanumeric() || b"-+/;.$_()".contains(&byte)
}
