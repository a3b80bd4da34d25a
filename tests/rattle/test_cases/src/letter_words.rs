//! Letters in words.
use crate::spoken::tell_key;
use ballot::{Ballot, Letter, LetterBody, Pvalue, Slot};
use object::{Command, Value};
use std::alloc::{AllocError, Global};

/// The commands that were submitted, each key once.
#[derive(Drop)]
pub struct Known<Op: Value> {
    commands: Vec<Command<Op>>,
}

impl<Op: Value> Known<Op> {
    /// No command.
    pub fn new(alloc: Global) -> Known<Op> {
        Known {
            commands: Vec::new(alloc),
        }
    }

    /// Keeps a copy of a command, unless one of its key is known.
    pub fn learn(&mut self, command: &Command<Op>) -> Result<(), AllocError> {
        if !self.has_key_of(command) {
            self.commands.push(command.copy()?)?;
        }
        Ok(())
    }

    fn has_key_of(&self, command: &Command<Op>) -> bool {
        self.commands.iter().any(|own| own.key() == command.key())
    }

    /// Tells a command between these texts.
    pub fn tell_between(
        &self,
        begin: &str,
        command: &Command<Op>,
        end: &str,
        told: &mut String,
    ) -> Result<(), AllocError> {
        told.push_str(begin)?;
        self.tell(command, told)?;
        told.push_str(end)
    }

    /// Tells the key of a command, where it is the one that was submitted under that key.
    fn tell(&self, command: &Command<Op>, told: &mut String) -> Result<(), AllocError> {
        if self.commands.contains(command) {
            tell_key(command.key(), told)
        } else {
            told.push_str("unknown")
        }
    }
}

/// Tells a letter's number, who sent it to whom, and what it says.
pub fn tell_letter<Op: Value>(
    known: &Known<Op>,
    number: usize,
    letter: &Letter<Command<Op>>,
    told: &mut String,
) -> Result<(), AllocError> {
    write!(told, "  {number}: {} -> {} ", letter.from, letter.to)?;
    tell_body(known, &letter.body, told)?;
    told.push_str("\n")
}

fn tell_body<Op: Value>(
    known: &Known<Op>,
    body: &LetterBody<Command<Op>>,
    told: &mut String,
) -> Result<(), AllocError> {
    match body {
        LetterBody::P1a(ballot) => tell_ballot("p1a ", *ballot, told),
        LetterBody::P1b(ballot, report) => tell_report(known, *ballot, report.as_slice(), told),
        LetterBody::P2a(pvalue) => tell_pvalue(known, "p2a ", pvalue, told),
        LetterBody::P2b {
            ballot,
            slot,
            asked,
        } => tell_vote(*ballot, *slot, *asked, told),
        LetterBody::Propose(slot, command) => tell_placed(known, "propose", *slot, command, told),
        LetterBody::Decision(slot, command) => tell_placed(known, "decision", *slot, command, told),
        LetterBody::Ask(slot) => tell_slot("ask", *slot, told),
    }
}

// A promise, and each pvalue of its report.
fn tell_report<Op: Value>(
    known: &Known<Op>,
    ballot: Ballot,
    report: &[Pvalue<Command<Op>>],
    told: &mut String,
) -> Result<(), AllocError> {
    tell_ballot("p1b ", ballot, told)?;
    for pvalue in report {
        tell_pvalue(known, ", ", pvalue, told)?;
    }
    Ok(())
}

// A vote: its slot, the promised ballot, and the ballot that was asked for.
fn tell_vote(
    promised: Option<Ballot>,
    slot: Slot,
    asked: Ballot,
    told: &mut String,
) -> Result<(), AllocError> {
    tell_slot("p2b", slot, told)?;
    match promised {
        Some(ballot) => tell_ballot(" ", ballot, told)?,
        None => told.push_str(" nothing")?,
    }
    tell_ballot(" asked ", asked, told)
}

// Ballot, slot and command.
fn tell_pvalue<Op: Value>(
    known: &Known<Op>,
    begin: &str,
    pvalue: &Pvalue<Command<Op>>,
    told: &mut String,
) -> Result<(), AllocError> {
    tell_ballot(begin, pvalue.ballot, told)?;
    tell_placed(known, "", pvalue.slot, &pvalue.value, told)
}

// A command in its slot.
fn tell_placed<Op: Value>(
    known: &Known<Op>,
    word: &str,
    slot: Slot,
    command: &Command<Op>,
    told: &mut String,
) -> Result<(), AllocError> {
    tell_slot(word, slot, told)?;
    known.tell_between(" ", command, "", told)
}

fn tell_slot(word: &str, slot: Slot, told: &mut String) -> Result<(), AllocError> {
    write!(told, "{word} {}", slot.number())
}

// Round, node and boot with dots between them: the numbers that a ballot shows for debugging.
fn tell_ballot(begin: &str, ballot: Ballot, told: &mut String) -> Result<(), AllocError> {
    let shown = format!(in *told.allocator(); "{ballot:?}")?;
    told.push_str(begin)?;
    tell_numbers(shown.as_str(), told)
}

fn tell_numbers(text: &str, told: &mut String) -> Result<(), AllocError> {
    let numbers = numbers_of(*told.allocator(), text)?;
    match *numbers.as_slice() {
        [round, node, boot] => write!(told, "{round}.{node}.{boot}"),
        _ => told.push_str("no ballot"),
    }
}

fn numbers_of(alloc: Global, text: &str) -> Result<Vec<&str>, AllocError> {
    let mut numbers = Vec::new(alloc);
    for number in text.split(|c: char| !c.is_ascii_digit()) {
        if !number.is_empty() {
            numbers.push(number)?;
        }
    }
    Ok(numbers)
}
