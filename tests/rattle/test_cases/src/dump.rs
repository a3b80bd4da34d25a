//! Dumps of what happened. A step is a part of it, or the number of nodes or their weights, with which the parts so far are
//! dumped.
use crate::replies::reply_of;
use crate::script::{Stage, tell_line};
use crate::spoken::{command_of, key_of};
use crate::values::{count_of, node_of};
use anyhow::{Context, Result, bail};
use ballot::Members;
use bean_queue::Queue;
use bean_words::{Op, Reply};
use chronicle_text::{Chronicle, WriteText};
use object::{Answer, Key, Submission};
use std::alloc::Global;
use std::mem;

/// What happened.
#[derive(Drop)]
pub struct Parts {
    pub submitted: Vec<Submission<Op>>,
    pub answers: Vec<Answer<Reply>>,
    pub order: Vec<Key>,
}

impl Parts {
    /// Nothing.
    pub fn new(alloc: Global) -> Parts {
        Parts {
            submitted: Vec::new(alloc),
            answers: Vec::new(alloc),
            order: Vec::new(alloc),
        }
    }

    fn submit(&mut self, alloc: Global, text: &str) -> Result<()> {
        let submission = submission_of(alloc, text)?;
        Ok(self.submitted.push(submission)?)
    }

    fn answer(&mut self, alloc: Global, text: &str) -> Result<()> {
        let answer = answer_of(alloc, text)?;
        Ok(self.answers.push(answer)?)
    }

    fn place(&mut self, key: &str) -> Result<()> {
        let key = key_of(key)?;
        Ok(self.order.push(key)?)
    }

    // Tells the dump of the parts so far, and forgets them.
    fn tell_dump(
        &mut self,
        alloc: Global,
        members: Option<Members>,
        told: &mut String,
    ) -> Result<()> {
        let parts = mem::replace(self, Parts::new(alloc));
        match dump_of(alloc, members, parts)? {
            Some(dump) => tell_lines(dump.as_str(), told),
            None => Ok(told.push_str("  no chronicle\n")?),
        }
    }
}

fn tell_lines(text: &str, told: &mut String) -> Result<()> {
    for line in text.lines() {
        tell_line("  ", line, told)?;
    }
    Ok(())
}

impl Stage for Parts {
    fn step(&mut self, alloc: Global, step: &str, told: &mut String) -> Result<()> {
        let (word, text) = step.split_once(' ').context("no part")?;
        match word {
            "submit" => self.submit(alloc, text),
            "answer" => self.answer(alloc, text),
            "order" => self.place(text),
            "nodes" => self.tell_dump(alloc, Members::new(node_of(text)?), told),
            "weights" => self.tell_dump(alloc, weighted(alloc, text)?, told),
            _ => bail!("no such part"),
        }
    }
}

// The members of these weights, where they are some.
fn weighted(alloc: Global, text: &str) -> Result<Option<Members>> {
    let mut weights = Vec::new(alloc);
    for word in text.split(' ') {
        weights.push(word.parse::<u32>().context("no weight")?)?;
    }
    Ok(Members::weighted(&weights))
}

// A submission: the words of its command, `after`, and how many answers came before it.
fn submission_of(alloc: Global, text: &str) -> Result<Submission<Op>> {
    let (command, after) = text.split_once(" after ").context("after what")?;
    let after = count_of(after)?;
    let command = command_of::<Queue>(alloc, command)?;
    Ok(Submission { command, after })
}

// An answer: the key, and the words of the reply.
fn answer_of(alloc: Global, text: &str) -> Result<Answer<Reply>> {
    let (key, reply) = text.split_once(' ').context("no reply")?;
    let to = key_of(key)?;
    let reply = reply_of(alloc, reply)?;
    Ok(Answer { to, reply })
}

/// The text of a dump of these parts, where they make a chronicle.
pub fn dump_of(alloc: Global, members: Option<Members>, parts: Parts) -> Result<Option<String>> {
    let Some(members) = members else {
        return Ok(None);
    };
    match Chronicle::new(members, parts.submitted, parts.answers, parts.order) {
        Some(chronicle) => text_of(alloc, &chronicle).map(Some),
        None => Ok(None),
    }
}

fn text_of(alloc: Global, chronicle: &Chronicle<Op, Reply>) -> Result<String> {
    let mut bytes = Vec::new(alloc);
    chronicle.write_text(&mut bytes)?;
    let text = str::from_utf8(bytes.as_slice()).ok().context("no text")?;
    Ok(String::from_str(alloc, text)?)
}
