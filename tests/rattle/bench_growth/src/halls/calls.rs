//! Calls of a hall, one after the other, until a command is answered.

use bean_queue::Queue;
use bean_words::Op;
use hall::{Hall, Ticket};
use object::Act;

/// A session asks for an operation at node 1, all letters are delivered, each node performs what was decided, and the
/// session notes the answer.
pub fn ask(hall: &mut Hall<Queue>, ticket: &mut Ticket<Queue>, op: Op) -> Option<()> {
    hall.submit(ticket, Act::Do(op), 1).ok()?;
    decide_next(hall)?;
    hall.note(ticket).ok()?;
    Some(())
}

/// Node 1 proposes its next request, all letters are delivered, and each node performs what was decided.
pub fn decide_next(hall: &mut Hall<Queue>) -> Option<()> {
    hall.propose(1).ok()?;
    deliver_all(hall)?;
    perform_each(hall)
}

/// Each node performs what was decided next.
pub fn perform_each(hall: &mut Hall<Queue>) -> Option<()> {
    for before in 0..hall.members().count() {
        hall.perform(before + 1).ok()?;
    }
    Some(())
}

/// Every node receives its mail, as often as the letters of a command make others necessary: those that propose, ask,
/// vote and decide.
pub fn deliver_all(hall: &mut Hall<Queue>) -> Option<()> {
    for _ in 0..4 {
        for before in 0..hall.members().count() {
            deliver_each(hall, before + 1)?;
        }
    }
    Some(())
}

/// A node receives all its mail; tells how many letters.
pub fn deliver_each(hall: &mut Hall<Queue>, node: u8) -> Option<u64> {
    for count in 0..u64::MAX {
        if !hall.deliver(node).ok()? {
            return Some(count);
        }
    }
    None
}
