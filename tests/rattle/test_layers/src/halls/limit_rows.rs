//! What goes on far past every small number: where memory is ample, nothing is refused.
use ballot::Members;
use hall::Hall;
use object::{Act, Register, RegisterOp};
use std::alloc::Global;
use std::test::Fail;

/// So many acts are handed in by one ticket of a hall.
const ACTS: u32 = 5_000;

/// So many sessions are opened in one hall.
const SESSIONS: u32 = 70_000;

/// How many acts of one ticket the hall of the only member answers, one after the other.
fn count_answered(alloc: Global, members: Members) -> Result<u32, Fail> {
    let mut hall: Hall<Register> = Hall::new(alloc, members)?;
    let mut ticket = hall.open_session()?;
    hall.wake(1)?;
    let mut answered = 0u32;
    for _ in 0..ACTS {
        hall.submit(&mut ticket, Act::Do(RegisterOp::Read), 1)?;
        hall.propose(1)?;
        deliver_all(&mut hall)?;
        hall.perform(1)?;
        if hall.note(&mut ticket)? {
            answered = answered.saturating_add(1);
        }
    }
    Ok(answered)
}

/// Delivers the letters of the only member, those that it sends then too.
fn deliver_all(hall: &mut Hall<Register>) -> Result<(), Fail> {
    for _ in 0..64 {
        if !hall.deliver(1)? {
            break;
        }
    }
    Ok(())
}

#[test]
fn many_acts_of_one_ticket(rt: HostRuntime) -> Result<(), Fail> {
    let members = Members::new(1).ok_or("no members")?;
    assert_eq!(rt; count_answered(rt.alloc(), members)?, ACTS);
    Ok(())
}

#[test]
fn many_sessions_of_one_hall(rt: HostRuntime) -> Result<(), Fail> {
    let members = Members::new(3).ok_or("no members")?;
    let mut hall: Hall<Register> = Hall::new(rt.alloc(), members)?;
    for session in 1..=SESSIONS {
        assert_eq!(rt; hall.open_session()?.session(), session);
    }
    Ok(())
}
