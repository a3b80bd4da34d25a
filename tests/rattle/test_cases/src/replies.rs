//! Writing replies. A step is a reply, and its body or its report is quoted.
use crate::dump::Parts;
use crate::requests::line_of;
use crate::script::{Stage, tell_line};
use crate::values::{large, name_of, quoted_body_of};
use anyhow::{Context, Result, bail};
use bean_codec::write_reply;
use bean_words::{Names, Reply};
use object::{Answer, Key};
use std::alloc::Global;

/// A writer of replies.
#[derive(Drop)]
pub struct Replies;

impl Stage for Replies {
    fn step(&mut self, alloc: Global, step: &str, told: &mut String) -> Result<()> {
        let reply = reply_of(alloc, step)?;
        tell_text(alloc, &reply, told)?;
        let line = answer_line(alloc, reply)?;
        Ok(tell_line("  ", line.as_str(), told)?)
    }
}

// Tells the text of a reply, after two bytes that were there.
fn tell_text(alloc: Global, reply: &Reply, told: &mut String) -> Result<()> {
    let mut bytes = Vec::from_slice(alloc, b"> ")?;
    write_reply(reply, &mut bytes)?;
    Ok(write!(told, "  \"{}\"\n", bytes.escape_ascii())?)
}

// The line of a dump for the reply, to session 2's third command.
fn answer_line(alloc: Global, reply: Reply) -> Result<String> {
    let to = Key {
        session: 2,
        number: 3,
    };
    let mut parts = Parts::new(alloc);
    parts.answers.push(Answer { to, reply })?;
    line_of(alloc, parts)
}

/// The reply of a text.
pub fn reply_of(alloc: Global, text: &str) -> Result<Reply> {
    match text.split_once(' ') {
        Some((word, rest)) => long_reply_of(alloc, word, rest),
        None if text == "OK" => Ok(Reply::Tubes(Names::new(alloc))),
        None => plain_reply_of(text),
    }
}

// A reply of a word and what follows it.
fn long_reply_of(alloc: Global, word: &str, rest: &str) -> Result<Reply> {
    match word {
        "INSERTED" => large(rest).map(Reply::Inserted),
        "WATCHING" => large(rest).map(Reply::Watching),
        "KICKED" => large(rest).map(Reply::KickedCount),
        "USING" => name_of(alloc, rest).map(Reply::Using),
        "OK" => names_of(alloc, rest).map(Reply::Tubes),
        "DATA" => quoted_body_of(alloc, rest).map(Reply::Data),
        _ => job_reply_of(alloc, word, rest),
    }
}

// A reply of an id and a body.
fn job_reply_of(alloc: Global, word: &str, rest: &str) -> Result<Reply> {
    let (id, body) = rest.split_once(' ').context("no body")?;
    let id = large(id)?;
    let body = quoted_body_of(alloc, body)?;
    match word {
        "RESERVED" => Ok(Reply::Reserved { id, body }),
        "FOUND" => Ok(Reply::Found { id, body }),
        _ => bail!("no such reply"),
    }
}

// A reply of one word.
fn plain_reply_of(word: &str) -> Result<Reply> {
    match word {
        "NOT_IGNORED" => Ok(Reply::NotIgnored),
        "DEADLINE_SOON" => Ok(Reply::DeadlineSoon),
        "TIMED_OUT" => Ok(Reply::TimedOut),
        "DELETED" => Ok(Reply::Deleted),
        "NOT_FOUND" => Ok(Reply::NotFound),
        "RELEASED" => Ok(Reply::Released),
        "BURIED" => Ok(Reply::Buried),
        "TOUCHED" => Ok(Reply::Touched),
        "KICKED" => Ok(Reply::Kicked),
        "PAUSED" => Ok(Reply::Paused),
        "INTERNAL_ERROR" => Ok(Reply::InternalError),
        _ => bail!("no such reply"),
    }
}

fn names_of(alloc: Global, words: &str) -> Result<Names> {
    let mut names = Names::new(alloc);
    for word in words.split_whitespace() {
        names.push(name_of(alloc, word)?)?;
    }
    Ok(names)
}
