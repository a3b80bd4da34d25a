//! Mails of many letters.

use super::calls::{deliver_all, deliver_each, perform_each};
use ballot::Members;
use bean_queue::Queue;
use bean_words::{Op, Reply};
use hall::{Hall, Ticket};
use object::Act;

/// The letter that asks node 2 to accept a command is copied until node 2 has so many, and read as often; each time it
/// votes. Then node 1 reads the votes, and the command is answered. It is told how many letters either reads.
///
/// Node 1 reads two letters more than node 2: its own letter to itself and its own vote. The second node's vote makes a
/// majority of two or three, and that of node 1 comes last, so its decision is one letter more.
pub fn fill_a_mail(rt: &HostRuntime, members: Members, letters: u64) -> Option<()> {
    let mut hall = Hall::new(rt.alloc(), members).ok()?;
    fill(rt, &mut hall, letters)
}

fn fill(rt: &HostRuntime, hall: &mut Hall<Queue>, letters: u64) -> Option<()> {
    let mut ticket = hall.open_session().ok()?;
    let (second, first) = read_copies(hall, &mut ticket, letters)?;
    answer(hall, &mut ticket)?;
    println!(rt; "letters {second} {first}").ok()
}

// How many letters node 2 reads, and then node 1.
fn read_copies(
    hall: &mut Hall<Queue>,
    ticket: &mut Ticket<Queue>,
    letters: u64,
) -> Option<(u64, u64)> {
    ask_to_accept(hall, ticket)?;
    copy_front(hall, letters)?;
    let second = deliver_each(hall, 2)?;
    let first = deliver_each(hall, 1)?;
    Some((second, first))
}

// Node 1 leads, and asks to accept the session's command. Node 2 has no other letter.
fn ask_to_accept(hall: &mut Hall<Queue>, ticket: &mut Ticket<Queue>) -> Option<()> {
    hall.wake(1).ok()?;
    deliver_all(hall)?;
    propose(hall, ticket)?;
    deliver_first(hall, 1)?;
    deliver_first(hall, 2)
}

// The session asks which tube it uses, and node 1 proposes that.
fn propose(hall: &mut Hall<Queue>, ticket: &mut Ticket<Queue>) -> Option<()> {
    hall.submit(ticket, Act::Do(Op::ListTubeUsed), 1).ok()?;
    hall.propose(1).ok()?;
    Some(())
}

// A node has a letter, and reads it.
fn deliver_first(hall: &mut Hall<Queue>, node: u8) -> Option<()> {
    if hall.deliver(node).ok()? {
        Some(())
    } else {
        None
    }
}

// The letter in front of node 2's mail is copied until there are so many.
fn copy_front(hall: &mut Hall<Queue>, letters: u64) -> Option<()> {
    for _ in 1..letters {
        if !hall.repeat(2).ok()? {
            return None;
        }
    }
    Some(())
}

// What was decided is performed, and the session is told which tube it uses.
fn answer(hall: &mut Hall<Queue>, ticket: &mut Ticket<Queue>) -> Option<()> {
    perform_each(hall)?;
    hall.note(ticket).ok()?;
    match ticket.noted()? {
        Reply::Using(_) => Some(()),
        _ => None,
    }
}
