//! What a network of one node does by itself, and what becomes of its mail.
use ballot::Members;
use network::Network;
use node::{Deed, Outcome};
use object::{Act, Command, Key, Register, RegisterOp};
use std::alloc::Global;
use std::test::Fail;

/// A write of 7, as a session's first command.
fn write() -> Result<Command<RegisterOp>, Fail> {
    let key = Key {
        session: 1,
        number: 1,
    };
    Ok(Command::new(key, Act::Do(RegisterOp::Write(7))).ok_or("no command")?)
}

#[test]
fn a_command_is_proposed_once(rt: HostRuntime) -> Result<(), Fail> {
    let members = Members::new(1).ok_or("no members")?;
    let mut network: Network<Register> = Network::new(rt.alloc(), members)?;
    let mut answers = Vec::new(rt.alloc());
    assert!(rt; network.node(1).undecided().is_none());
    let request = Deed::Request(write()?);
    assert!(rt; network.act(1, request, &mut answers)? == Outcome::Done);
    assert!(rt; !network.has_mail(1));
    assert!(rt; network.act(1, Deed::Propose, &mut answers)? == Outcome::Done);
    assert!(rt; network.has_mail(1));
    assert!(rt; network.act(1, Deed::Propose, &mut answers)? == Outcome::Idle);
    assert!(rt;
        network
            .node(1)
            .undecided()
            .is_some_and(|slot| slot.number() == 1)
    );
    assert!(rt; network.act(1, Deed::Perform, &mut answers)? == Outcome::Idle);
    assert!(rt; answers.is_empty());
    Ok(())
}

#[test]
fn letters_are_repeated_and_lost(rt: HostRuntime) -> Result<(), Fail> {
    let members = Members::new(1).ok_or("no members")?;
    let mut network: Network<Register> = Network::new(rt.alloc(), members)?;
    let mut answers = Vec::new(rt.alloc());
    assert!(rt; !network.lose(1));
    assert!(rt; !network.repeat(1)?);
    // a scout asks the one acceptor for its promise
    network.act(1, Deed::Wake, &mut answers)?;
    assert!(rt; network.repeat(1)?);
    assert!(rt; network.lose(1));
    assert!(rt; network.has_mail(1));
    assert!(rt; network.lose(1));
    assert!(rt; !network.has_mail(1));
    // and asks again
    network.act(1, Deed::Nudge, &mut answers)?;
    assert!(rt; network.lose(1));
    assert!(rt; !network.lose(1));
    Ok(())
}

#[test]
fn a_letter_is_delivered_once(rt: HostRuntime) -> Result<(), Fail> {
    let members = Members::new(1).ok_or("no members")?;
    let mut network: Network<Register> = Network::new(rt.alloc(), members)?;
    let mut answers = Vec::new(rt.alloc());
    assert!(rt; !network.deliver(1)?);
    // a scout asks the one acceptor for its promise, which is on its way back then
    network.act(1, Deed::Wake, &mut answers)?;
    assert!(rt; network.deliver(1)?);
    assert!(rt; network.lose(1));
    assert!(rt; !network.has_mail(1));
    Ok(())
}
