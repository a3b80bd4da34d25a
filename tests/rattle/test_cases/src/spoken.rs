//! Commands and answers in words.
use crate::values::{large, small};
use anyhow::{Context, Result};
use object::{Act, Answer, Command, Key, Object};
use std::alloc::{AllocError, Global};

/// An object whose operations and replies have words.
pub trait Spoken: Object {
    /// The operation of these words.
    fn op_of(alloc: Global, words: &[&str]) -> Result<Self::Op>;

    /// Tells the words of a reply.
    fn tell_reply(reply: &Self::Reply, told: &mut String) -> Result<(), AllocError>;
}

/// A command: session and number with a dot between them, and the words of its act.
pub fn command_of<O: Spoken>(alloc: Global, text: &str) -> Result<Command<O::Op>> {
    let (key, act) = text.split_once(' ').context("no act")?;
    let act = act_of::<O>(alloc, act)?;
    Command::new(key_of(key)?, act).context("no command")
}

fn act_of<O: Spoken>(alloc: Global, text: &str) -> Result<Act<O::Op>> {
    match text {
        "close" => Ok(Act::Close),
        "tick" => Ok(Act::Tick),
        _ => op_of::<O>(alloc, text).map(Act::Do),
    }
}

fn op_of<O: Spoken>(alloc: Global, text: &str) -> Result<O::Op> {
    let words: Vec<&str> = text.split_whitespace().collect(alloc)?;
    O::op_of(alloc, words.as_slice())
}

/// A key: session and number, with a dot between them.
pub fn key_of(word: &str) -> Result<Key> {
    let (session, number) = word.split_once('.').context("no key")?;
    Ok(Key {
        session: small(session)?,
        number: large(number)?,
    })
}

/// Tells a key in the same way.
pub fn tell_key(key: Key, told: &mut String) -> Result<(), AllocError> {
    let Key { session, number } = key;
    write!(told, "{session}.{number}")
}

/// Tells answers, each with its key.
pub fn tell_answers<O: Spoken>(answers: &[Answer<O::Reply>], told: &mut String) -> Result<()> {
    for answer in answers {
        tell_answer::<O>(answer, told)?;
    }
    Ok(())
}

/// Tells an answer with its key.
pub fn tell_answer<O: Spoken>(
    answer: &Answer<O::Reply>,
    told: &mut String,
) -> Result<(), AllocError> {
    told.push_str("  ")?;
    tell_key(answer.to, told)?;
    told.push_str(" ")?;
    O::tell_reply(&answer.reply, told)?;
    told.push_str("\n")
}
