//! One acceptor that accepts in slot after slot, and says when it comes by some of them; and a leader that makes proposals
//! of what an acceptor accepted in many slots, and has them decided.
//!
//! `bench/acceptor_growth` reads the time at each line of the acceptor's slots.

mod leading;

use acceptor::Acceptor;
use ballot::{Ballot, Pvalue, Slot};
use leading::decided_again;
use object::{Act, Command, Key, RegisterOp};
use std::alloc::Global;
use std::io::{self, Write};

const SLOTS: u64 = 1_010_000;

/// After these many slots a line is written.
const MARKS: [u64; 4] = [1_000, 11_000, 1_000_000, SLOTS];

/// Of so many slots the leader hears what was accepted there.
const GATHERED: u64 = 70_000;

/// Accepts in all slots, and has what is accepted in some of them decided.
pub fn measure<W: Write>(alloc: Global, out: &mut W) -> Option<()> {
    accept_all(alloc, SLOTS, out)?;
    let acceptor = accept_all(alloc, GATHERED, &mut io::sink())?;
    let decided = decided_again(alloc, acceptor, GATHERED)?;
    writeln!(out, "decided {decided}").ok()
}

// An acceptor that has accepted in so many slots. It says when it comes by some of them.
fn accept_all<W: Write>(
    alloc: Global,
    slots: u64,
    out: &mut W,
) -> Option<Acceptor<Command<RegisterOp>>> {
    let ballot = Ballot::new(0, 1, 0)?;
    let mut acceptor = Acceptor::new(alloc);
    acceptor.on_p1a(ballot).ok()?;
    for number in 1..=slots {
        accept(&mut acceptor, ballot, number)?;
        if MARKS.contains(&number) {
            writeln!(out, "{number}").ok()?;
        }
    }
    Some(acceptor)
}

// A command is accepted in the slot of its number.
fn accept(acceptor: &mut Acceptor<Command<RegisterOp>>, ballot: Ballot, number: u64) -> Option<()> {
    let key = Key { session: 1, number };
    let value = Command::new(key, Act::Do(RegisterOp::Write(number)))?;
    let slot = Slot::new(number)?;
    let promised = acceptor
        .on_p2a(Pvalue {
            ballot,
            slot,
            value,
        })
        .ok()??;
    if promised == ballot { Some(()) } else { None }
}
