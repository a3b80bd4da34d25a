//! A request stops where too many calls were made for it, and not before.
use ballot::Members;
use object::{Answer, Command, Object, Register, RegisterOp, RegisterReply};
use simulated_hall::{SimulatedHall, Unanswered};
use std::alloc::{AllocError, Global};
use std::marker::Model;
use std::sync::atomic::{AtomicU64, Ordering};
use std::test::Fail;

/// A register that is refused memory so often before it obeys its first command.
#[derive(Drop)]
struct Reluctant<const REFUSALS: u64> {
    register: Register,
    tries: AtomicU64,
}

impl<const REFUSALS: u64> Model for Reluctant<REFUSALS> {
    ghost use Rattle.object.specs.declared.register.Register.{Register};

    ghost Value = { Register };

    ghost view = { λ r. r.register };
}

impl<const REFUSALS: u64> Object for Reluctant<REFUSALS> {
    type Op = RegisterOp;

    type Reply = RegisterReply;

    ghost use Rattle.std.specs.Bool.{⊤};
    ghost use Rattle.object.specs.Registers.{written, register_answers, told-once, told-to};

    ghost rules = { record {
      fresh = record { value = 0 };
      after = λ r c. written r c.act;
      answers = λ r c. register_answers r c.key c.act;
      same = ⟦<RegisterOp as PartialEq>⟧.eq;
    } };

    ghost waits = { λ r k. ⊥ };

    ghost promise = { λ commands. ⊤ };

    fn new(alloc: Global) -> Result<Self, AllocError> {
        Ok(Reluctant {
            register: Register::new(alloc)?,
            tries: AtomicU64::new(0),
        })
    }

    fn apply(
        &mut self,
        cmd: &Command<RegisterOp>,
        out: &mut Vec<Answer<RegisterReply>>,
    ) -> Result<(), AllocError> {
        if self.tries.fetch_add(1, Ordering::SeqCst) < REFUSALS {
            return Err(AllocError);
        }
        self.register.apply(cmd, out)
    }

    fn obey(&mut self, cmd: &Command<RegisterOp>) -> Result<(), AllocError> {
        if self.tries.fetch_add(1, Ordering::SeqCst) < REFUSALS {
            return Err(AllocError);
        }
        self.register.obey(cmd)
    }

    fn keeps_promise() {}

    ghost use Rattle.std.proofs.Common.{inl};
    ghost use Rattle.std.specs.Prelude.{refl};

    ghost same = { refl };

    ghost idle = { λ k h. h };

    ghost waited = { λ s c k h. inl h };

    ghost named = { λ s c a i. inl (told-to s c.key c.act a i) };

    ghost over = { λ s c a i h. h };

    ghost once = { λ s c. told-once s c.key c.act };
}

/// What is answered to a first request where the objects of so many nodes are refused memory so often.
fn answer<const REFUSALS: u64>(
    alloc: Global,
    nodes: u8,
) -> Result<Result<RegisterReply, Unanswered>, Fail> {
    let members = Members::new(nodes).ok_or("no members")?;
    let mut hall: SimulatedHall<Reluctant<REFUSALS>> = SimulatedHall::new(alloc, members, 0)?;
    Ok(hall.ask(RegisterOp::Write(7)))
}

// A call that is refused is made again, and counts each time. Beside those that are refused a first request takes fewer than
// 2,000 calls.
#[test]
fn stops_after_a_hundred_thousand_calls(rt: HostRuntime) -> Result<(), Fail> {
    for nodes in [1, 3, 7] {
        let answered = answer::<98_000>(rt.alloc(), nodes)?;
        assert!(rt; answered == Ok(RegisterReply::Done), "{nodes} nodes");
        let stopped = answer::<100_000>(rt.alloc(), nodes)?;
        assert!(rt; stopped == Err(Unanswered::Stopped), "{nodes} nodes");
    }
    Ok(())
}
