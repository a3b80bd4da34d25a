//! The work queue in words.
use crate::spoken::Spoken;
use crate::values::{body_of, large, name_of, small};
use anyhow::{Result, bail};
use bean_queue::QueueOver;
use bean_words::{Body, Name, Op, Reply};
use job_store::JobMap;
use std::alloc::{AllocError, Global};

impl<M: JobMap> Spoken for QueueOver<M> {
    fn op_of(alloc: Global, words: &[&str]) -> Result<Op> {
        op_of(alloc, words)
    }

    fn tell_reply(reply: &Reply, told: &mut String) -> Result<(), AllocError> {
        tell_reply(reply, told)
    }
}

// Any operation, by how many words it has.
fn op_of(alloc: Global, words: &[&str]) -> Result<Op> {
    match *words {
        [word] => plain_op(word),
        [word, other] => short_op(alloc, word, other),
        ["bury", id, pri] => bury(id, pri),
        ["pause-tube", tube, seconds] => pause(alloc, tube, seconds),
        ["release", id, pri, delay] => release(id, pri, delay),
        ["put", pri, delay, ttr, body] => put(alloc, pri, delay, ttr, body),
        _ => bail!("no such operation"),
    }
}

fn plain_op(word: &str) -> Result<Op> {
    match word {
        "reserve" => Ok(Op::Reserve { seconds: None }),
        "peek-ready" => Ok(Op::PeekReady),
        "peek-delayed" => Ok(Op::PeekDelayed),
        "peek-buried" => Ok(Op::PeekBuried),
        "list-tubes" => Ok(Op::ListTubes),
        "list-tube-used" => Ok(Op::ListTubeUsed),
        "list-tubes-watched" => Ok(Op::ListTubesWatched),
        "stats" => Ok(Op::Stats),
        _ => bail!("no such operation"),
    }
}

// An operation of two words, the second of which is a tube or a number.
fn short_op(alloc: Global, word: &str, other: &str) -> Result<Op> {
    match word {
        "use" => name_of(alloc, other).map(Op::Use),
        "watch" => name_of(alloc, other).map(Op::Watch),
        "ignore" => name_of(alloc, other).map(Op::Ignore),
        "stats-tube" => name_of(alloc, other).map(Op::StatsTube),
        "kick" => small(other).map(Op::Kick),
        "reserve-with-timeout" => reserve_for(other),
        _ => job_op(word, large(other)?),
    }
}

// An operation on the job of an id.
fn job_op(word: &str, id: u64) -> Result<Op> {
    match word {
        "delete" => Ok(Op::Delete(id)),
        "touch" => Ok(Op::Touch(id)),
        "kick-job" => Ok(Op::KickJob(id)),
        "reserve-job" => Ok(Op::ReserveJob(id)),
        "stats-job" => Ok(Op::StatsJob(id)),
        "peek" => Ok(Op::Peek(id)),
        _ => bail!("no such operation"),
    }
}

fn reserve_for(seconds: &str) -> Result<Op> {
    let seconds = Some(small(seconds)?);
    Ok(Op::Reserve { seconds })
}

fn bury(id: &str, pri: &str) -> Result<Op> {
    Ok(Op::Bury {
        id: large(id)?,
        pri: small(pri)?,
    })
}

fn pause(alloc: Global, tube: &str, seconds: &str) -> Result<Op> {
    Ok(Op::Pause {
        tube: name_of(alloc, tube)?,
        seconds: small(seconds)?,
    })
}

fn release(id: &str, pri: &str, delay: &str) -> Result<Op> {
    Ok(Op::Release {
        id: large(id)?,
        pri: small(pri)?,
        delay: small(delay)?,
    })
}

// A put has its body where the protocol has the body's length.
fn put(alloc: Global, pri: &str, delay: &str, ttr: &str, body: &str) -> Result<Op> {
    Ok(Op::Put {
        pri: small(pri)?,
        delay: small(delay)?,
        ttr: small(ttr)?,
        body: body_of(alloc, body.as_bytes())?,
    })
}

// A reply: its first line, and what follows it.
fn tell_reply(reply: &Reply, told: &mut String) -> Result<(), AllocError> {
    match reply {
        Reply::Inserted(id) => tell_number("INSERTED", *id, told),
        Reply::Watching(count) => tell_number("WATCHING", *count, told),
        Reply::KickedCount(count) => tell_number("KICKED", *count, told),
        Reply::Using(tube) => tell_name("USING", tube, told),
        Reply::Tubes(names) => tell_names(names.as_slice(), told),
        Reply::Data(text) => write!(told, "DATA \"{}\"", text.as_slice().escape_ascii()),
        Reply::Reserved { id, body } => tell_job("RESERVED", *id, body, told),
        Reply::Found { id, body } => tell_job("FOUND", *id, body, told),
        _ => told.push_str(plain_reply(reply)),
    }
}

// The word of a reply that has no other.
fn plain_reply(reply: &Reply) -> &'static str {
    match reply {
        Reply::NotIgnored => "NOT_IGNORED",
        Reply::DeadlineSoon => "DEADLINE_SOON",
        Reply::TimedOut => "TIMED_OUT",
        Reply::Deleted => "DELETED",
        Reply::NotFound => "NOT_FOUND",
        Reply::Released => "RELEASED",
        Reply::Buried => "BURIED",
        Reply::Touched => "TOUCHED",
        Reply::Kicked => "KICKED",
        Reply::Paused => "PAUSED",
        Reply::InternalError => "INTERNAL_ERROR",
        _ => "more than a word",
    }
}

fn tell_number(word: &str, number: u64, told: &mut String) -> Result<(), AllocError> {
    write!(told, "{word} {number}")
}

// A word, an id, and the length and bytes of a body.
fn tell_job(word: &str, id: u64, body: &Body, told: &mut String) -> Result<(), AllocError> {
    let bytes = body.as_slice();
    write!(told, "{word} {id} {} ", bytes.len())?;
    tell_bytes(bytes, told)
}

fn tell_name(word: &str, name: &Name, told: &mut String) -> Result<(), AllocError> {
    write!(told, "{word} ")?;
    tell_bytes(name.as_slice(), told)
}

fn tell_names(names: &[Name], told: &mut String) -> Result<(), AllocError> {
    told.push_str("OK")?;
    for name in names {
        tell_name("", name, told)?;
    }
    Ok(())
}

fn tell_bytes(bytes: &[u8], told: &mut String) -> Result<(), AllocError> {
    for byte in bytes {
        told.push(char::from(*byte))?;
    }
    Ok(())
}
