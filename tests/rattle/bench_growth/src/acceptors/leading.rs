//! A leader that hears what was accepted in many slots.
use acceptor::Acceptor;
use ballot::{Ballot, Letter, LetterBody, Members, Pvalue, Slot};
use leader::Leader;
use object::{Command, RegisterOp};
use std::alloc::Global;

type Write = Command<RegisterOp>;

/// How many slots are decided as the acceptor has accepted them, where it is one of three, and the leader hears it and an
/// acceptor that has accepted nothing, and then the votes of both in each of so many slots.
pub fn decided_again(alloc: Global, acceptor: Acceptor<Write>, slots: u64) -> Option<u64> {
    let ballot = Ballot::new(0, 2, 0)?;
    let mut leader = Leader::new(alloc, Members::new(3)?, 2, 0);
    adopt(alloc, &mut leader, acceptor, ballot)?;
    let mut letters = Vec::new(alloc);
    let mut decided = 0u64;
    for number in 1..=slots {
        letters.clear();
        vote(&mut leader, ballot, Slot::new(number)?, &mut letters)?;
        if is_decided(letters.as_slice(), number) {
            decided = decided.saturating_add(1);
        }
    }
    Some(decided)
}

// The leader wakes, and both acceptors promise its ballot.
fn adopt(
    alloc: Global,
    leader: &mut Leader<Write>,
    mut acceptor: Acceptor<Write>,
    ballot: Ballot,
) -> Option<()> {
    let mut letters = Vec::new(alloc);
    leader.wake(&mut letters).ok()?;
    let (promised, report) = acceptor.on_p1a(ballot).ok()?;
    hear(leader, 1, promised, report.as_slice(), &mut letters)?;
    hear(leader, 3, ballot, &[], &mut letters)
}

// An acceptor promises the ballot, and reports this.
fn hear(
    leader: &mut Leader<Write>,
    from: u8,
    ballot: Ballot,
    report: &[Pvalue<Write>],
    letters: &mut Vec<Letter<Write>>,
) -> Option<()> {
    leader.on_p1b(from, ballot, report, letters).ok()
}

// Both acceptors vote in the slot.
fn vote(
    leader: &mut Leader<Write>,
    ballot: Ballot,
    slot: Slot,
    letters: &mut Vec<Letter<Write>>,
) -> Option<()> {
    leader.on_p2b(1, Some(ballot), slot, ballot, letters).ok()?;
    leader.on_p2b(3, Some(ballot), slot, ballot, letters).ok()
}

// Whether each of the three is told that the command of this number is decided in its slot.
fn is_decided(letters: &[Letter<Write>], number: u64) -> bool {
    letters.len() == 3
        && letters.iter().all(|letter| match &letter.body {
            LetterBody::Decision(slot, command) => {
                slot.number() == number && command.key().number == number
            }
            _ => false,
        })
}
