//! Dumps of halls: each is written, read again and checked.

use bean_queue::Queue;
use bean_words::{Op, Reply};
use chronicle::check;
use chronicle_text::{Chronicle, WriteText, read_text};
use hall::Hall;
use std::alloc::Global;

/// How many submissions, answers and places of the order a dump has, and how many bytes its text.
#[derive(Clone, Copy)]
pub struct Counts {
    pub submitted: usize,
    pub answers: usize,
    pub order: usize,
    pub bytes: usize,
}

/// What the hall's dump has, where it is legal, and what is read of its text has the same text.
pub fn count_dump(alloc: Global, hall: &Hall<Queue>) -> Option<Counts> {
    let text = dump_of(alloc, hall)?;
    count(alloc, text.as_slice())
}

fn count(alloc: Global, text: &[u8]) -> Option<Counts> {
    let read = read_text(alloc, text).ok()?;
    check(alloc, &read).ok()?;
    if text_of(alloc, &read)?.as_slice() != text {
        return None;
    }
    Some(Counts {
        submitted: read.submitted().len(),
        answers: read.answers().len(),
        order: read.order().len(),
        bytes: text.len(),
    })
}

fn dump_of(alloc: Global, hall: &Hall<Queue>) -> Option<Vec<u8>> {
    let chronicle = hall.dump().ok()?;
    text_of(alloc, &chronicle)
}

fn text_of(alloc: Global, chronicle: &Chronicle<Op, Reply>) -> Option<Vec<u8>> {
    let mut text = Vec::new(alloc);
    chronicle.write_text(&mut text).ok()?;
    Some(text)
}
