//! What replicas do with what is asked for and decided, as tables.
use ballot::{Letter, LetterBody, Members, Slot};
use object::{Act, Command, Effect, Key, Register, RegisterOp, RegisterReply};
use replica::Replica;
use slot_log::LearnError;
use std::alloc::Global;
use std::test::Fail;

/// What a session asks for by its first command.
type Asked = (u32, RegisterOp);

const READ: RegisterOp = RegisterOp::Read;

fn command(asked: Asked) -> Result<Command<RegisterOp>, Fail> {
    let (session, op) = asked;
    let key = Key { session, number: 1 };
    Ok(Command::new(key, Act::Do(op)).ok_or("no command")?)
}

fn slot(number: u64) -> Result<Slot, Fail> {
    Ok(Slot::new(number).ok_or("no slot")?)
}

fn members(count: u8) -> Result<Members, Fail> {
    Ok(Members::new(count).ok_or("no members")?)
}

/// What is performed: the slot, the session, the effect, and the reply, where there is one.
struct Performed {
    slot: u64,
    session: u32,
    effect: Effect,
    reply: Option<RegisterReply>,
}

/// A letter of a replica: who sends it to whom, its slot, and the session whose read it proposes, or none where it asks.
type Sent = (u8, u8, u64, Option<u32>);

/// What a replica is asked.
enum Step {
    /// It is asked for a command.
    Request(Asked),
    /// It proposes at this node of so many; whether it did.
    Propose(u8, u8, bool),
    /// It learns that a command is decided for the slot.
    Learn(u64, Asked),
    /// It is told of another command for a slot whose command is known.
    Clash(u64, Asked),
    /// The next decision is performed.
    Performs(Performed),
    /// The next decision is performed; whether there was one.
    Perform(bool),
    /// The least slot that is proposed and not decided.
    Undecided(Option<u64>),
    /// It says again what it waits for, at this node of so many.
    Nudge(u8, u8),
    /// It is asked for decisions from a slot on; their slots, and the sessions of their reads.
    Ask(u64, &'static [(u64, u32)]),
    /// These are its letters.
    Says(&'static [Sent]),
}

/// Whether the replica performs this next, with its effect and its reply.
fn performs(
    alloc: Global,
    replica: &mut Replica<Register>,
    expected: &Performed,
) -> Result<bool, Fail> {
    let mut answers = Vec::new(alloc);
    let done = replica.perform(&mut answers)?.ok_or("nothing performed")?;
    let reply = answers.pop().map(|answer| answer.reply);
    Ok(
        done.slot.number() == expected.slot
            && done.key.session == expected.session
            && done.effect == expected.effect
            && reply == expected.reply,
    )
}

/// Whether the replica performs something next.
fn performs_any(alloc: Global, replica: &mut Replica<Register>) -> Result<bool, Fail> {
    let mut answers = Vec::new(alloc);
    Ok(replica.perform(&mut answers)?.is_some())
}

/// Whether the decisions from a slot on are these.
fn tells(
    alloc: Global,
    replica: &Replica<Register>,
    number: u64,
    expected: &[(u64, u32)],
) -> Result<bool, Fail> {
    let expected = decisions(alloc, expected)?;
    Ok(replica.ask(slot(number)?)? == expected)
}

fn decisions(
    alloc: Global,
    expected: &[(u64, u32)],
) -> Result<Vec<LetterBody<Command<RegisterOp>>>, Fail> {
    let mut bodies = Vec::new(alloc);
    for (number, session) in expected {
        bodies.push(decision(*number, *session)?)?;
    }
    Ok(bodies)
}

fn decision(number: u64, session: u32) -> Result<LetterBody<Command<RegisterOp>>, Fail> {
    let command = command((session, READ))?;
    Ok(LetterBody::Decision(slot(number)?, command))
}

fn letter(sent: Sent) -> Result<Letter<Command<RegisterOp>>, Fail> {
    let (from, to, number, session) = sent;
    let body = body(slot(number)?, session)?;
    Ok(Letter { from, to, body })
}

fn body(slot: Slot, session: Option<u32>) -> Result<LetterBody<Command<RegisterOp>>, Fail> {
    match session {
        Some(session) => Ok(LetterBody::Propose(slot, command((session, READ))?)),
        None => Ok(LetterBody::Ask(slot)),
    }
}

fn letters_of(alloc: Global, expected: &[Sent]) -> Result<Vec<Letter<Command<RegisterOp>>>, Fail> {
    let mut letters = Vec::new(alloc);
    for sent in expected {
        letters.push(letter(*sent)?)?;
    }
    Ok(letters)
}

/// What is asked for, decided or performed goes as the step says.
fn goes(
    alloc: Global,
    replica: &mut Replica<Register>,
    step: &Step,
    letters: &mut Vec<Letter<Command<RegisterOp>>>,
) -> Result<bool, Fail> {
    match step {
        Step::Request(asked) => {
            replica.request(command(*asked)?)?;
            Ok(true)
        }
        Step::Learn(number, asked) => Ok(replica.learn(slot(*number)?, command(*asked)?).is_ok()),
        Step::Clash(number, asked) => {
            Ok(replica.learn(slot(*number)?, command(*asked)?) == Err(LearnError::Clash))
        }
        Step::Performs(expected) => performs(alloc, replica, expected),
        Step::Perform(did) => Ok(performs_any(alloc, replica)? == *did),
        Step::Ask(number, expected) => tells(alloc, replica, *number, *expected),
        _ => is_said(alloc, replica, step, letters),
    }
}

/// What the replica says and shows goes as the step says.
fn is_said(
    alloc: Global,
    replica: &mut Replica<Register>,
    step: &Step,
    letters: &mut Vec<Letter<Command<RegisterOp>>>,
) -> Result<bool, Fail> {
    match step {
        Step::Propose(node, count, did) => {
            Ok(replica.propose(members(*count)?, *node, letters)? == *did)
        }
        Step::Undecided(expected) => {
            Ok(replica.undecided().map(|slot| slot.number()) == *expected)
        }
        Step::Nudge(node, count) => {
            replica.nudge(members(*count)?, *node, letters)?;
            Ok(true)
        }
        Step::Says(expected) => Ok(*letters == letters_of(alloc, *expected)?),
        _ => Ok(false),
    }
}

/// The place of the first step that the replica takes otherwise.
fn wrong_step(
    alloc: Global,
    replica: &mut Replica<Register>,
    steps: &[Step],
) -> Result<Option<usize>, Fail> {
    let mut letters = Vec::new(alloc);
    for (place, step) in steps.iter().enumerate() {
        if !goes(alloc, replica, step, &mut letters)? {
            return Ok(Some(place));
        }
    }
    Ok(None)
}

/// The same of a new replica.
fn wrong_step_of_new(alloc: Global, steps: &[Step]) -> Result<Option<usize>, Fail> {
    let mut replica: Replica<Register> = Replica::new(alloc)?;
    wrong_step(alloc, &mut replica, steps)
}

static DECIDED_TWICE: [Step; 9] = [
    Step::Learn(1, (1, RegisterOp::Write(5))),
    Step::Learn(2, (2, RegisterOp::Write(6))),
    Step::Learn(3, (3, RegisterOp::Read)),
    Step::Learn(4, (2, RegisterOp::Write(6))),
    Step::Performs(Performed {
        slot: 1,
        session: 1,
        effect: Effect::Done,
        reply: Some(RegisterReply::Done),
    }),
    Step::Performs(Performed {
        slot: 2,
        session: 2,
        effect: Effect::Done,
        reply: Some(RegisterReply::Done),
    }),
    Step::Performs(Performed {
        slot: 3,
        session: 3,
        effect: Effect::Done,
        reply: Some(RegisterReply::Value(6)),
    }),
    Step::Performs(Performed {
        slot: 4,
        session: 2,
        effect: Effect::Stale,
        reply: None,
    }),
    Step::Perform(false),
];

static IN_ORDER: [Step; 7] = [
    Step::Learn(2, (2, READ)),
    Step::Perform(false),
    Step::Learn(1, (1, READ)),
    Step::Perform(true),
    Step::Perform(true),
    Step::Clash(2, (1, READ)),
    Step::Perform(false),
];

static LOST: [Step; 10] = [
    Step::Request((1, READ)),
    Step::Request((1, READ)),
    Step::Propose(1, 2, true),
    Step::Propose(1, 2, false),
    Step::Undecided(Some(1)),
    Step::Learn(1, (2, READ)),
    Step::Undecided(None),
    Step::Perform(true),
    Step::Propose(1, 2, true),
    Step::Says(&[
        (1, 1, 1, Some(1)),
        (1, 2, 1, Some(1)),
        (1, 1, 2, Some(1)),
        (1, 2, 2, Some(1)),
    ]),
];

static NUDGED: [Step; 8] = [
    Step::Request((1, READ)),
    Step::Propose(2, 3, true),
    Step::Learn(4, (4, READ)),
    Step::Nudge(2, 3),
    Step::Ask(1, &[(4, 4)]),
    Step::Ask(4, &[(4, 4)]),
    Step::Ask(5, &[]),
    Step::Says(&[
        (2, 1, 1, Some(1)),
        (2, 2, 1, Some(1)),
        (2, 3, 1, Some(1)),
        (2, 1, 1, Some(1)),
        (2, 2, 1, Some(1)),
        (2, 3, 1, Some(1)),
        (2, 1, 1, None),
        (2, 3, 1, None),
    ]),
];

#[test]
fn replicas_go_so(rt: HostRuntime) -> Result<(), Fail> {
    for (title, steps) in [
        (
            "a command decided twice counts once",
            DECIDED_TWICE.as_slice(),
        ),
        (
            "no slot is performed before the one below it",
            IN_ORDER.as_slice(),
        ),
        ("a lost proposal is proposed again", LOST.as_slice()),
        ("a nudge and an ask tell these", NUDGED.as_slice()),
    ] {
        assert_eq!(rt; wrong_step_of_new(rt.alloc(), steps)?, None, "{title}");
    }
    Ok(())
}
