//! One replica that decides slot after slot, and says when it comes by some of them.
//!
//! `bench/slot_log_growth` reads the time at each line.

use ballot::{Letter, Members};
use object::{Act, Answer, Command, Key, Register, RegisterOp, RegisterReply};
use replica::Replica;
use std::alloc::Global;
use std::io::Write;

const SLOTS: u64 = 100_000;

/// After these many slots a line is written.
const MARKS: [u64; 4] = [1, 1_001, SLOTS - 1_000, SLOTS];

/// Decides all slots.
pub fn measure<W: Write>(alloc: Global, out: &mut W) -> Option<()> {
    let mut replica = Replica::new(alloc).ok()?;
    let members = Members::new(1)?;
    let mut letters = Vec::new(alloc);
    let mut answers = Vec::new(alloc);
    for number in 1..SLOTS + 1 {
        decide(&mut replica, members, number, &mut letters, &mut answers)?;
        letters.clear();
        answers.clear();
        if MARKS.contains(&number) {
            writeln!(out, "{number}").ok()?;
        }
    }
    Some(())
}

// The next slot, from the request to the answer.
fn decide(
    replica: &mut Replica<Register>,
    members: Members,
    number: u64,
    letters: &mut Vec<Letter<Command<RegisterOp>>>,
    answers: &mut Vec<Answer<RegisterReply>>,
) -> Option<()> {
    let key = Key { session: 1, number };
    let write = Act::Do(RegisterOp::Write(number));
    replica.request(Command::new(key, write)?).ok()?;
    replica.propose(members, 1, letters).ok()?;
    let slot = replica.undecided()?;
    let again = Act::Do(RegisterOp::Write(number));
    replica.learn(slot, Command::new(key, again)?).ok()?;
    replica.perform(answers).ok()??;
    Some(())
}
