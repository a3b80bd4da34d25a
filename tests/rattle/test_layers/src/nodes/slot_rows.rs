//! What a slot log makes of requests and decisions, as tables.
use ballot::Slot;
use object::{Act, Command, Key, Value};
use slot_log::{LearnError, SlotLog};
use std::alloc::{AllocError, Global};
use std::test::Fail;

/// An operation that is told by a number.
#[derive(Drop, PartialEq, Eq)]
struct Word(u8);

impl Value for Word {
    ghost use Rattle.std.proofs.Common.{rules};
    ghost use Rattle.std.proofs.lemmas.Grind.{common_steps};

    ghost exact = { Prim.grind (rules, common_steps) };

    fn copy(&self) -> Result<Word, AllocError> {
        Ok(Word(self.0))
    }
}

/// The number of a command's key, and its operation.
type Parts = (u64, u8);

fn command(parts: Parts) -> Result<Command<Word>, Fail> {
    let (number, word) = parts;
    let key = Key { session: 1, number };
    Ok(Command::new(key, Act::Do(Word(word))).ok_or("no command")?)
}

fn slot(number: u64) -> Result<Slot, Fail> {
    Ok(Slot::new(number).ok_or("no slot")?)
}

/// A slot and the command in it.
type Placed = (u64, Parts);

fn entry(placed: Placed) -> Result<(Slot, Command<Word>), Fail> {
    let (number, parts) = placed;
    Ok((slot(number)?, command(parts)?))
}

fn entry_if_any(placed: Option<Placed>) -> Result<Option<(Slot, Command<Word>)>, Fail> {
    match placed {
        Some(placed) => Ok(Some(entry(placed)?)),
        None => Ok(None),
    }
}

fn entries(alloc: Global, placed: &[Placed]) -> Result<Vec<(Slot, Command<Word>)>, Fail> {
    let mut all = Vec::new(alloc);
    for one in placed {
        all.push(entry(*one)?)?;
    }
    Ok(all)
}

/// What can be seen of a log.
enum Sight {
    /// What it would propose.
    Proposal(Option<Placed>),
    /// The count of its proposals.
    Proposals(usize),
    /// The least slot that is proposed and not decided.
    Undecided(Option<u64>),
    /// The slot whose decision is performed next.
    SlotOut(u64),
    /// The decision that is performed next, if it is known.
    Decided(Option<Parts>),
    /// The decisions from a slot on.
    DecidedFrom(u64, &'static [Placed]),
}

/// Whether the log looks so.
fn shows(alloc: Global, log: &SlotLog<Command<Word>>, sight: &Sight) -> Result<bool, Fail> {
    match sight {
        Sight::Proposal(expected) => match entry_if_any(*expected)? {
            Some((slot, command)) => Ok(log.next_proposal() == Some((slot, &command))),
            None => Ok(log.next_proposal().is_none()),
        },
        Sight::Proposals(count) => Ok(log.proposals().len() == *count),
        Sight::Undecided(Some(number)) => Ok(log.undecided() == Some(slot(*number)?)),
        Sight::Undecided(None) => Ok(log.undecided().is_none()),
        Sight::SlotOut(number) => Ok(log.slot_out() == *number),
        Sight::Decided(Some(parts)) => Ok(log.next_decided() == Some(&command(*parts)?)),
        Sight::Decided(None) => Ok(log.next_decided().is_none()),
        Sight::DecidedFrom(number, expected) => {
            Ok(log.decided_from(slot(*number)?)? == entries(alloc, *expected)?)
        }
    }
}

/// What a log is told.
enum Step {
    /// The command is asked for.
    Request(Parts),
    /// The commands of the numbers from 1 to this one are asked for.
    RequestTo(u64),
    /// It proposes this.
    Propose(Option<Placed>),
    /// It proposes the commands of the numbers from 1 to this one, each in the slot of its number.
    ProposeTo(u64),
    /// The command is decided in the slot.
    Learn(Placed),
    /// It is told of another command for a slot whose command is known.
    Clash(Placed),
    /// The next decision is known, and was performed.
    Advance,
    /// It forgets the slots below this one, all of which were performed.
    Forget(u64),
    /// It looks so.
    Shows(Sight),
}

/// The step goes as it says.
fn goes(alloc: Global, log: &mut SlotLog<Command<Word>>, step: &Step) -> Result<bool, Fail> {
    match step {
        Step::Request(parts) => {
            log.request(command(*parts)?)?;
            Ok(true)
        }
        Step::RequestTo(last) => request_to(log, *last),
        Step::Propose(expected) => Ok(log.propose_next()? == entry_if_any(*expected)?),
        Step::ProposeTo(last) => proposes_to(log, *last),
        Step::Learn((number, parts)) => {
            log.learn(slot(*number)?, command(*parts)?)?;
            Ok(true)
        }
        Step::Clash((number, parts)) => {
            Ok(log.learn(slot(*number)?, command(*parts)?) == Err(LearnError::Clash))
        }
        Step::Advance => {
            if log.next_decided().is_none() {
                return Ok(false);
            }
            log.advance();
            Ok(true)
        }
        Step::Forget(base) => {
            if log.slot_out() < *base {
                return Ok(false);
            }
            log.forget(*base);
            Ok(true)
        }
        Step::Shows(sight) => shows(alloc, log, sight),
    }
}

fn request_to(log: &mut SlotLog<Command<Word>>, last: u64) -> Result<bool, Fail> {
    for number in 1..=last {
        log.request(command((number, 0))?)?;
    }
    Ok(true)
}

fn proposes_to(log: &mut SlotLog<Command<Word>>, last: u64) -> Result<bool, Fail> {
    for number in 1..=last {
        if log.propose_next()? != Some(entry((number, (number, 0)))?) {
            return Ok(false);
        }
    }
    Ok(true)
}

/// The place of the first step that the log takes otherwise.
fn wrong_step(
    alloc: Global,
    log: &mut SlotLog<Command<Word>>,
    steps: &[Step],
) -> Result<Option<usize>, Fail> {
    for (place, step) in steps.iter().enumerate() {
        if !goes(alloc, log, step)? {
            return Ok(Some(place));
        }
    }
    Ok(None)
}

/// The same of a new log.
fn wrong_step_of_new(alloc: Global, steps: &[Step]) -> Result<Option<usize>, Fail> {
    let mut log = SlotLog::new(alloc);
    wrong_step(alloc, &mut log, steps)
}

static WINDOW: [Step; 8] = [
    Step::RequestTo(65),
    Step::ProposeTo(64),
    Step::Propose(None),
    Step::Shows(Sight::Proposal(None)),
    Step::Learn((1, (1, 0))),
    Step::Advance,
    Step::Shows(Sight::SlotOut(2)),
    Step::Propose(Some((65, (65, 0)))),
];

static KNOWN: [Step; 10] = [
    Step::Request((1, 0)),
    Step::Request((1, 0)),
    Step::Request((1, 1)),
    Step::Propose(Some((1, (1, 0)))),
    Step::Propose(Some((2, (1, 1)))),
    Step::Request((1, 0)),
    Step::Propose(None),
    Step::Learn((3, (2, 0))),
    Step::Request((2, 0)),
    Step::Propose(None),
];

static LOST: [Step; 12] = [
    Step::Request((1, 0)),
    Step::Propose(Some((1, (1, 0)))),
    Step::Shows(Sight::Undecided(Some(1))),
    Step::Shows(Sight::Proposals(1)),
    Step::Learn((1, (2, 0))),
    Step::Learn((2, (3, 0))),
    Step::Shows(Sight::Undecided(None)),
    Step::Shows(Sight::Decided(Some((2, 0)))),
    Step::Advance,
    Step::Shows(Sight::Proposals(0)),
    Step::Shows(Sight::Proposal(Some((3, (1, 0))))),
    Step::Propose(Some((3, (1, 0)))),
];

static DECIDED: [Step; 8] = [
    Step::Learn((70, (70, 0))),
    Step::Learn((69, (69, 0))),
    Step::Learn((6, (6, 0))),
    Step::Learn((69, (69, 0))),
    Step::Clash((69, (69, 1))),
    Step::Shows(Sight::DecidedFrom(6, &[(6, (6, 0)), (69, (69, 0))])),
    Step::Shows(Sight::DecidedFrom(1 << 62, &[])),
    Step::Shows(Sight::Decided(None)),
];

// The commands of slots 1 and 3 are of the keys of slots 4 and 5; that of slot 1 is that of slot 4 once more.
static FORGOTTEN: [Step; 20] = [
    Step::Learn((1, (1, 0))),
    Step::Learn((2, (2, 0))),
    Step::Learn((3, (3, 0))),
    Step::Learn((4, (1, 0))),
    Step::Learn((5, (3, 1))),
    Step::Request((9, 0)),
    Step::Advance,
    Step::Advance,
    Step::Advance,
    Step::Forget(4),
    Step::Shows(Sight::SlotOut(4)),
    Step::Shows(Sight::DecidedFrom(1, &[(4, (1, 0)), (5, (3, 1))])),
    Step::Request((1, 0)),
    Step::Request((3, 1)),
    Step::Request((2, 0)),
    Step::Request((3, 0)),
    Step::Propose(Some((6, (9, 0)))),
    Step::Propose(Some((7, (2, 0)))),
    Step::Propose(Some((8, (3, 0)))),
    Step::Propose(None),
];

#[test]
fn slot_logs_go_so(rt: HostRuntime) -> Result<(), Fail> {
    for (title, steps) in [
        ("proposals stop at the window", WINDOW.as_slice()),
        ("a known command is no request", KNOWN.as_slice()),
        ("a lost proposal goes back", LOST.as_slice()),
        ("a slot is decided once", DECIDED.as_slice()),
        ("what is forgotten is new", FORGOTTEN.as_slice()),
    ] {
        assert_eq!(rt; wrong_step_of_new(rt.alloc(), steps)?, None, "{title}");
    }
    Ok(())
}
