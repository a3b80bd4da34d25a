//! The program that answers one client.
use crate::outcome::{Outcome, Requests};
use beanpax::{DONE, FAULT, Host, Reading, Writing, program};
use std::alloc::Global;

/// What comes after the preparations.
#[derive(Clone, Copy)]
pub enum Then {
    /// Nothing.
    Stop,
    /// Memory is taken so many times, and then the program is called.
    Call(usize),
}

impl Then {
    /// What this input asks for: how often memory is taken, or `prepare`. Without input none is taken.
    pub fn from_input(input: &[u8]) -> Option<Then> {
        match std::str::from_utf8(input).ok()? {
            "" => Some(Then::Call(0)),
            "prepare" => Some(Then::Stop),
            count => count.parse().ok().map(Then::Call),
        }
    }
}

// Takes memory so many times.
fn take_memory(alloc: Global, count: usize) {
    for _ in 0..count {
        let mut taken = Vec::new(alloc);
        let _ = taken.push(0_u8);
    }
}

/// What the client asks.
const INPUT: &[u8] = b"put 10 0 60 5\r\nhello\r\nreserve-with-timeout 0\r\ndelete 1\r\n";

/// What the client is told where its put, its reserve and its delete are refused or not: those that aren't have the
/// answers of a queue that was never asked the others.
const TRANSCRIPTS: &[(bool, bool, bool, &[u8])] = &[
    (
        false,
        false,
        false,
        b"INSERTED 1\r\nRESERVED 1 5\r\nhello\r\nDELETED\r\n",
    ),
    (
        true,
        false,
        false,
        b"OUT_OF_MEMORY\r\nTIMED_OUT\r\nNOT_FOUND\r\n",
    ),
    (
        false,
        true,
        false,
        b"INSERTED 1\r\nOUT_OF_MEMORY\r\nDELETED\r\n",
    ),
    (
        false,
        false,
        true,
        b"INSERTED 1\r\nRESERVED 1 5\r\nhello\r\nOUT_OF_MEMORY\r\n",
    ),
    (
        true,
        true,
        false,
        b"OUT_OF_MEMORY\r\nOUT_OF_MEMORY\r\nNOT_FOUND\r\n",
    ),
    (
        true,
        false,
        true,
        b"OUT_OF_MEMORY\r\nTIMED_OUT\r\nOUT_OF_MEMORY\r\n",
    ),
    (
        false,
        true,
        true,
        b"INSERTED 1\r\nOUT_OF_MEMORY\r\nOUT_OF_MEMORY\r\n",
    ),
    (
        true,
        true,
        true,
        b"OUT_OF_MEMORY\r\nOUT_OF_MEMORY\r\nOUT_OF_MEMORY\r\n",
    ),
];

/// A put, a reserve and a delete.
pub fn first_client<H: Host>(rt: &H, then: Then) -> Option<Outcome> {
    let alloc = rt.alloc();
    let words = words(alloc)?;
    let mut output = Vec::with_capacity(alloc, 256).ok()?;
    let mut errors = Vec::with_capacity(alloc, 256).ok()?;
    match then {
        Then::Stop => return Some(Outcome::Prepared),
        Then::Call(count) => take_memory(alloc, count),
    }
    let status = status_of(rt, words.as_slice(), &mut output, &mut errors);
    Some(judge(status, output.as_slice(), errors.as_slice()))
}

fn words(alloc: Global) -> Option<Vec<String>> {
    let mut words = Vec::with_capacity(alloc, 2).ok()?;
    for word in ["beanpax", "run"] {
        words.push(String::from_str(alloc, word).ok()?).ok()?;
    }
    Some(words)
}

// The program's status. What it writes goes into room that is there.
fn status_of<H: Host>(rt: &H, words: &[String], output: &mut Vec<u8>, errors: &mut Vec<u8>) -> u8 {
    let mut input = Reading::new(INPUT);
    let mut output = Writing::new(output);
    let mut errors = Writing::new(errors);
    program(rt, words, &mut input, &mut output, &mut errors)
}

// A whole transcript with status 0, or the beginning of one with status 1.
fn judge(status: u8, output: &[u8], errors: &[u8]) -> Outcome {
    if status == DONE && errors.is_empty() {
        return whole(output);
    }
    let is_told = status == FAULT && errors == b"beanpax: 1 out of memory\n".as_slice();
    if is_told && begins_one(output) {
        Outcome::OutOfMemory(output.len())
    } else {
        Outcome::Wrong
    }
}

fn whole(output: &[u8]) -> Outcome {
    for (put, reserve, delete, transcript) in TRANSCRIPTS {
        if output == *transcript {
            return Outcome::Answered(Requests {
                put: *put,
                reserve: *reserve,
                delete: *delete,
            });
        }
    }
    Outcome::Wrong
}

fn begins_one(output: &[u8]) -> bool {
    TRANSCRIPTS
        .iter()
        .any(|(_, _, _, transcript)| transcript.starts_with(output))
}
