//! Texts of dumps, as they are read and inspected. A step adds to the text, or tells what comes of it.
use crate::quoted::bytes_of;
use crate::script::{Stage, tell_line};
use anyhow::{Context, Result, bail};
use chronicle::check;
use chronicle_text::{WriteText, read_text};
use inspection::inspect_text;
use std::alloc::Global;

/// A text.
#[derive(Drop)]
pub struct Text {
    bytes: Vec<u8>,
}

impl Text {
    /// Nothing.
    pub fn new(alloc: Global) -> Text {
        Text {
            bytes: Vec::new(alloc),
        }
    }

    // Adds what the step says.
    fn add(&mut self, alloc: Global, step: &str) -> Result<()> {
        let (word, text) = step.split_once(' ').context("no text")?;
        match word {
            "line" => self.add_line(text),
            "bytes" => self.add_bytes(alloc, text),
            _ => bail!("no such step"),
        }
    }

    fn add_line(&mut self, line: &str) -> Result<()> {
        self.bytes.extend_from_slice(line.as_bytes())?;
        Ok(self.bytes.push(b'\n')?)
    }

    fn add_bytes(&mut self, alloc: Global, quoted: &str) -> Result<()> {
        let bytes = bytes_of(alloc, quoted)?;
        Ok(self.bytes.extend_from_slice(bytes.as_slice())?)
    }

    // Tells what comes of reading the text.
    fn tell_reading(&self, alloc: Global, told: &mut String) -> Result<()> {
        let reading = reading_of(alloc, self.bytes.as_slice())?;
        Ok(tell_line("  ", reading.as_str(), told)?)
    }

    // Tells what comes of reading the text and checking what was read, in the words of its fault.
    fn tell_check(&self, alloc: Global, told: &mut String) -> Result<()> {
        let check = check_of(alloc, self.bytes.as_slice())?;
        Ok(tell_line("  ", check.as_str(), told)?)
    }

    // Tells what is found of the text.
    fn tell_verdict(&self, alloc: Global, told: &mut String) -> Result<()> {
        let line = verdict_of(alloc, self.bytes.as_slice())?;
        Ok(write!(told, "  {line}")?)
    }

    // Tells what is found of the text where each of its lines is changed in this way.
    fn tell_changes(&self, alloc: Global, change: Change, told: &mut String) -> Result<()> {
        let count = lines_in(self.bytes.as_slice());
        for place in 0..count {
            let text = changed(alloc, self.bytes.as_slice(), place, change)?;
            let line = verdict_of(alloc, text.as_slice())?;
            write!(told, "  {}: {line}", place.saturating_add(1))?;
        }
        Ok(())
    }

    // Tells for which beginnings of the text the bad line isn't the one after the last whole line.
    fn tell_cuts(&self, alloc: Global, told: &mut String) -> Result<()> {
        let text = self.bytes.as_slice();
        for len in 0..text.len() {
            let reading = reading_of(alloc, &text[..len])?;
            let wanted = wanted_of_cut(alloc, &text[..len])?;
            if reading.as_str() != wanted.as_str() {
                write!(told, "  {len} bytes: {reading}\n")?;
            }
        }
        Ok(())
    }
}

// The line after the last whole line is bad.
fn wanted_of_cut(alloc: Global, text: &[u8]) -> Result<String> {
    Ok(format!(in alloc; "line {}: bad line", lines_in(text).saturating_add(1))?)
}

// How many whole lines there are.
fn lines_in(text: &[u8]) -> usize {
    text.iter().filter(|byte| **byte == b'\n').count()
}

// What is found of the text, as a line.
fn verdict_of(alloc: Global, text: &[u8]) -> Result<String> {
    let verdict = inspect_text(alloc, text)?;
    Ok(verdict.line(alloc)?)
}

/// What is done to one line of a text.
#[derive(Clone, Copy)]
enum Change {
    LeaveOut,
    Double,
    SwapWithNext,
}

// The text, whose line at this place is changed.
fn changed(alloc: Global, text: &[u8], place: usize, change: Change) -> Result<Vec<u8>> {
    let mut changed = Vec::new(alloc);
    let mut held: &[u8] = &[];
    for (index, line) in text.split_inclusive(|byte| *byte == b'\n').enumerate() {
        if index == place {
            held = put_changed(&mut changed, line, change)?;
        } else {
            changed.extend_from_slice(line)?;
            changed.extend_from_slice(held)?;
            held = &[];
        }
    }
    changed.extend_from_slice(held)?;
    Ok(changed)
}

// Puts the line as it is changed, and gives what is to stand behind the next.
fn put_changed<'a>(text: &mut Vec<u8>, line: &'a [u8], change: Change) -> Result<&'a [u8]> {
    match change {
        Change::LeaveOut => Ok(&[]),
        Change::Double => {
            text.extend_from_slice(line)?;
            text.extend_from_slice(line)?;
            Ok(&[])
        }
        Change::SwapWithNext => Ok(line),
    }
}

// What comes of reading the text. What was read is written again as it was.
fn reading_of(alloc: Global, text: &[u8]) -> Result<String> {
    match read_text(alloc, text) {
        Ok(chronicle) => {
            let mut written = Vec::new(alloc);
            chronicle.write_text(&mut written)?;
            let same = written.as_slice() == text;
            Ok(String::from_str(alloc, if same { "read" } else { "changed" })?)
        }
        Err(fault) => Ok(format!(in alloc; "{fault}")?),
    }
}

// What comes of checking what is read of the text.
fn check_of(alloc: Global, text: &[u8]) -> Result<String> {
    let chronicle = match read_text(alloc, text) {
        Ok(chronicle) => chronicle,
        Err(fault) => return Ok(format!(in alloc; "{fault}")?),
    };
    match check(alloc, &chronicle) {
        Ok(()) => Ok(String::from_str(alloc, "right")?),
        Err(fault) => Ok(format!(in alloc; "{fault}")?),
    }
}

impl Stage for Text {
    fn step(&mut self, alloc: Global, step: &str, told: &mut String) -> Result<()> {
        match step {
            "read" => self.tell_reading(alloc, told),
            "cut" => self.tell_cuts(alloc, told),
            "check" => self.tell_check(alloc, told),
            "inspect" => self.tell_verdict(alloc, told),
            "leave out" => self.tell_changes(alloc, Change::LeaveOut, told),
            "double" => self.tell_changes(alloc, Change::Double, told),
            "swap" => self.tell_changes(alloc, Change::SwapWithNext, told),
            _ => self.add(alloc, step),
        }
    }
}
