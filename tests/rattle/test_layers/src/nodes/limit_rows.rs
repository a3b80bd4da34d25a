//! What goes on far past every small number: where memory is ample, nothing is refused.
use ballot::Members;
use object::{Act, Command, Key, Register, RegisterOp};
use replica::Replica;
use std::alloc::Global;
use std::test::Fail;

/// So many commands are asked for at one replica.
const COMMANDS: u32 = 1_000;

fn read_of(session: u32) -> Result<Command<RegisterOp>, Fail> {
    let key = Key { session, number: 1 };
    Ok(Command::new(key, Act::Do(RegisterOp::Read)).ok_or("no command")?)
}

/// How many of the slots that the replica of the only member proposes in are decided as it proposed, and performed.
fn count_performed(
    alloc: Global,
    replica: &mut Replica<Register>,
    members: Members,
) -> Result<u32, Fail> {
    let mut performed = 0u32;
    for session in 1..=COMMANDS {
        let mut letters = Vec::new(alloc);
        replica.propose(members, 1, &mut letters)?;
        let slot = replica.undecided().ok_or("nothing proposed")?;
        replica.learn(slot, read_of(session)?)?;
        let mut answers = Vec::new(alloc);
        if replica.perform(&mut answers)?.is_some() && answers.len() == 1 {
            performed = performed.saturating_add(1);
        }
    }
    Ok(performed)
}

#[test]
fn many_commands_at_a_replica(rt: HostRuntime) -> Result<(), Fail> {
    let alloc = rt.alloc();
    let members = Members::new(1).ok_or("no members")?;
    let mut replica: Replica<Register> = Replica::new(alloc)?;
    for session in 1..=COMMANDS {
        replica.request(read_of(session)?)?;
    }
    assert_eq!(rt; count_performed(alloc, &mut replica, members)?, COMMANDS);
    Ok(())
}
