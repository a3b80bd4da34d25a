//! What a leader says, as tables.
use ballot::{Ballot, Letter, LetterBody, Members, Pvalue, Slot};
use leader::{Leader, LeaderError};
use object::Value;
use std::alloc::{AllocError, Global};
use std::test::Fail;

/// A command of one byte.
#[derive(Clone, Copy, Debug, PartialEq, Eq)]
struct Word(u8);

impl Value for Word {
    ghost use Rattle.std.proofs.Common.{rules};
    ghost use Rattle.std.proofs.lemmas.Grind.{common_steps};

    ghost exact = { Prim.grind (rules, common_steps) };

    fn copy(&self) -> Result<Self, AllocError> {
        Ok(*self)
    }
}

/// Round, slot and command of a pvalue.
type Parts = (u64, u64, Word);

fn ballot(round: u64) -> Result<Ballot, Fail> {
    Ok(Ballot::new(round, 1, 0).ok_or("no ballot")?)
}

fn slot(number: u64) -> Result<Slot, Fail> {
    Ok(Slot::new(number).ok_or("no slot")?)
}

fn pvalue(parts: Parts) -> Result<Pvalue<Word>, Fail> {
    let (round, number, value) = parts;
    Ok(Pvalue {
        ballot: ballot(round)?,
        slot: slot(number)?,
        value,
    })
}

fn pvalues(alloc: Global, parts: &[Parts]) -> Result<Vec<Pvalue<Word>>, Fail> {
    let mut all = Vec::new(alloc);
    for part in parts {
        all.push(pvalue(*part)?)?;
    }
    Ok(all)
}

/// The leader of the only member.
fn alone(alloc: Global) -> Result<Leader<Word>, Fail> {
    let members = Members::new(1).ok_or("no members")?;
    Ok(Leader::new(alloc, members, 1, 0))
}

/// What the only member says to itself.
enum Said {
    /// A P1a of the ballot of a round.
    P1a(u64),
    P2a(Parts),
    /// A slot and its command.
    Decision(u64, Word),
}

fn letter_of(said: &Said) -> Result<Letter<Word>, Fail> {
    let body = match said {
        Said::P1a(round) => LetterBody::P1a(ballot(*round)?),
        Said::P2a(parts) => LetterBody::P2a(pvalue(*parts)?),
        Said::Decision(number, value) => LetterBody::Decision(slot(*number)?, *value),
    };
    Ok(Letter {
        from: 1,
        to: 1,
        body,
    })
}

fn letters_of(alloc: Global, said: &[Said]) -> Result<Vec<Letter<Word>>, Fail> {
    let mut letters = Vec::new(alloc);
    for one in said {
        letters.push(letter_of(one)?)?;
    }
    Ok(letters)
}

/// What the leader of the only member is told, or is to do. Each ballot is told by its round.
enum Step {
    /// It sends out its scout.
    Wake,
    /// It says again what it waits for.
    Nudge,
    /// A command is proposed for a slot.
    Propose(u64, Word),
    /// A ballot preempts it.
    Preempted(u64),
    /// A ballot preempts it, and none is left for it.
    LastPreempted(u64),
    /// A P1b: the promised ballot and the report.
    P1b(u64, &'static [Parts]),
    /// A P1b of a promised ballot and no report, after which no ballot is left for it.
    LastP1b(u64),
    /// A P2b: the promised ballot, the slot, and the ballot of the P2a that it answers.
    P2b(u64, u64, u64),
    /// What it said so far is forgotten.
    Forget,
    /// It has said this, since the last that was forgotten.
    Says(&'static [Said]),
}

/// The step goes as it says.
fn goes(
    alloc: Global,
    leader: &mut Leader<Word>,
    step: &Step,
    letters: &mut Vec<Letter<Word>>,
) -> Result<bool, Fail> {
    match step {
        Step::Wake => leader.wake(letters)?,
        Step::Nudge => leader.nudge(letters)?,
        Step::Propose(number, value) => leader.propose(slot(*number)?, *value, letters)?,
        Step::Forget => letters.clear(),
        Step::Says(said) => return Ok(*letters == letters_of(alloc, *said)?),
        _ => return hears(alloc, leader, step, letters),
    }
    Ok(true)
}

/// What the leader hears goes as the step says.
fn hears(
    alloc: Global,
    leader: &mut Leader<Word>,
    step: &Step,
    letters: &mut Vec<Letter<Word>>,
) -> Result<bool, Fail> {
    match step {
        Step::Preempted(round) => Ok(leader.preempted(ballot(*round)?).is_ok()),
        Step::LastPreempted(round) => {
            Ok(leader.preempted(ballot(*round)?) == Err(LeaderError::NoBallotLeft))
        }
        Step::P1b(round, report) => {
            let report = pvalues(alloc, *report)?;
            Ok(
                leader
                    .on_p1b(1, ballot(*round)?, report.as_slice(), letters)
                    .is_ok(),
            )
        }
        Step::LastP1b(round) => {
            let heard = leader.on_p1b(1, ballot(*round)?, &[], letters);
            Ok(heard == Err(LeaderError::NoBallotLeft))
        }
        Step::P2b(promised, number, asked) => {
            let promised = Some(ballot(*promised)?);
            let asked = ballot(*asked)?;
            Ok(
                leader
                    .on_p2b(1, promised, slot(*number)?, asked, letters)
                    .is_ok(),
            )
        }
        _ => Ok(false),
    }
}

/// The place of the first step that the leader takes otherwise.
fn wrong_step(
    alloc: Global,
    leader: &mut Leader<Word>,
    steps: &[Step],
) -> Result<Option<usize>, Fail> {
    let mut letters = Vec::new(alloc);
    for (place, step) in steps.iter().enumerate() {
        if !goes(alloc, leader, step, &mut letters)? {
            return Ok(Some(place));
        }
    }
    Ok(None)
}

/// The same of a new leader.
fn wrong_step_of_new(alloc: Global, steps: &[Step]) -> Result<Option<usize>, Fail> {
    let mut leader = alone(alloc)?;
    wrong_step(alloc, &mut leader, steps)
}

static DECIDED: [Step; 9] = [
    Step::Wake,
    Step::Nudge,
    Step::P1b(0, &[]),
    Step::Propose(1, Word(7)),
    Step::Nudge,
    Step::P2b(0, 1, 0),
    Step::Propose(1, Word(8)),
    Step::Nudge,
    Step::Says(&[
        Said::P1a(0),
        Said::P1a(0),
        Said::P2a((0, 1, Word(7))),
        Said::P2a((0, 1, Word(7))),
        Said::Decision(1, Word(7)),
    ]),
];

static ADOPTED: [Step; 6] = [
    Step::Propose(3, Word(3)),
    Step::Propose(1, Word(1)),
    Step::Preempted(4),
    Step::Wake,
    Step::P1b(
        5,
        &[
            (1, 3, Word(31)),
            (3, 3, Word(33)),
            (2, 3, Word(32)),
            (0, 2, Word(20)),
        ],
    ),
    Step::Says(&[
        Said::P1a(5),
        Said::P2a((5, 1, Word(1))),
        Said::P2a((5, 2, Word(20))),
        Said::P2a((5, 3, Word(33))),
    ]),
];

static OLDER_VOTE: [Step; 9] = [
    Step::Propose(1, Word(7)),
    Step::Preempted(1),
    Step::Wake,
    Step::P1b(2, &[]),
    Step::Forget,
    Step::P2b(2, 1, 0),
    Step::Says(&[]),
    Step::P2b(2, 1, 2),
    Step::Says(&[Said::Decision(1, Word(7))]),
];

static LAST_ROUND: [Step; 5] = [
    Step::LastPreempted(1 << 62),
    Step::Wake,
    Step::LastP1b(1 << 62),
    Step::Nudge,
    Step::Says(&[Said::P1a(0), Said::P1a(0)]),
];

#[test]
fn leaders_go_so(rt: HostRuntime) -> Result<(), Fail> {
    for (title, steps) in [
        ("a leader of one member decides", DECIDED.as_slice()),
        (
            "the greatest ballot goes before the own proposal",
            ADOPTED.as_slice(),
        ),
        (
            "a vote for an older p2a doesn't count",
            OLDER_VOTE.as_slice(),
        ),
        (
            "no ballot comes after the last round",
            LAST_ROUND.as_slice(),
        ),
    ] {
        assert_eq!(rt; wrong_step_of_new(rt.alloc(), steps)?, None, "{title}");
    }
    Ok(())
}
