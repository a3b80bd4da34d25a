//! What the parts of a node do with letters, as tables.
ghost use Rattle.std.specs.Prelude.{◌≡◌, true, IfOk, IsSome};
ghost use Rattle.ballot.specs.Members.{is_member};

use acceptor::Acceptor;
use ballot::{Ballot, Letter, LetterBody, Members, Pvalue, Slot};
use leader::Leader;
use object::Value;
use scout_commander::{Commander, Heard, Scout, Voted};
use std::alloc::{AllocError, Global};
use std::test::Fail;

/// A command of these rows.
#[derive(Clone, Copy, Debug, PartialEq, Eq)]
pub(crate) enum Token {
    X,
    Y,
}

impl Value for Token {
    ghost use Rattle.std.proofs.Common.{rules};
    ghost use Rattle.std.proofs.lemmas.Grind.{common_steps};

    ghost exact = { Prim.grind (rules, common_steps) };

    fn copy(&self) -> Result<Self, AllocError> {
        Ok(*self)
    }
}

/// Round, node and boot of a ballot.
type Numbers = (u64, u8, u64);

/// Ballot, slot and command of a pvalue.
type Parts = (Numbers, u64, Token);

fn ballot(numbers: Numbers) -> Result<Ballot, Fail> {
    let (round, node, boot) = numbers;
    Ok(Ballot::new(round, node, boot).ok_or("no ballot")?)
}

fn pvalue(parts: Parts) -> Result<Pvalue<Token>, Fail> {
    let (numbers, slot, value) = parts;
    Ok(Pvalue {
        ballot: ballot(numbers)?,
        slot: Slot::new(slot).ok_or("no slot")?,
        value,
    })
}

fn pvalues(alloc: Global, parts: &[Parts]) -> Result<Vec<Pvalue<Token>>, Fail> {
    let mut all = Vec::new(alloc);
    for part in parts {
        all.push(pvalue(*part)?)?;
    }
    Ok(all)
}

fn members(count: u8) -> Result<Members, Fail> {
    Ok(Members::new(count).ok_or("no members")?)
}

/// Whether so many members have this majority, and are these.
fn is_majority(count: u8, majority: u32) -> Result<bool, Fail> {
    let members = members(count)?;
    Ok(
        members.majority() == majority
            && members.count() == count
            && members.has(count)
            && !members.has(0)
            && !members.has(count.saturating_add(1)),
    )
}

/// How many members there are, and their majority.
static MAJORITIES: [(u8, u32); 7] = [(1, 1), (2, 2), (3, 2), (4, 3), (5, 3), (6, 4), (7, 4)];

#[test]
fn majorities_of_one_to_seven(rt: HostRuntime) -> Result<(), Fail> {
    for (count, majority) in MAJORITIES.iter() {
        assert!(rt; is_majority(*count, *majority)?, "of {count}");
    }
    assert!(rt; Members::new(0).is_none());
    assert!(rt; Members::new(8).is_none());
    Ok(())
}

/// Ballots, each greater than the one before it.
static RISING: [Numbers; 6] = [
    (0, 1, 0),
    (0, 1, 1),
    (0, 2, 0),
    (0, 7, 1 << 62),
    (1, 1, 0),
    (1 << 62, 7, 1 << 62),
];

/// Whether the first ballot is less.
fn is_less(lower: Numbers, greater: Numbers) -> Result<bool, Fail> {
    Ok(ballot(lower)? < ballot(greater)?)
}

/// Numbers of no ballot.
static NO_BALLOTS: [Numbers; 4] = [
    ((1 << 62) + 1, 1, 0),
    (0, 0, 0),
    (0, 8, 0),
    (0, 1, (1 << 62) + 1),
];

fn is_ballot(numbers: Numbers) -> bool {
    let (round, node, boot) = numbers;
    Ballot::new(round, node, boot).is_some()
}

#[test]
fn ballots_are_ordered_by_round_node_and_boot(rt: HostRuntime) -> Result<(), Fail> {
    for (lower, greater) in RISING.iter().zip(RISING.iter().skip(1)) {
        assert!(rt; is_less(*lower, *greater)?, "{lower:?} {greater:?}");
    }
    for numbers in NO_BALLOTS.iter() {
        assert!(rt; !is_ballot(*numbers), "{numbers:?}");
    }
    Ok(())
}

/// Whether the next ballot of the node and boot is this one.
fn is_next(own: Numbers, node: u8, boot: u64, next: Option<Numbers>) -> Result<bool, Fail> {
    let found = ballot(own)?.next_after(node, boot);
    match next {
        Some(numbers) => Ok(found == Some(ballot(numbers)?)),
        None => Ok(found.is_none()),
    }
}

#[test]
fn a_later_ballot_is_of_the_next_round(rt: HostRuntime) -> Result<(), Fail> {
    assert!(rt; is_next((4, 1, 9), 3, 2, Some((5, 3, 2)))?);
    assert!(rt; is_next((1 << 62, 1, 0), 1, 0, None)?);
    Ok(())
}

/// A letter that an acceptor hears, and what it answers.
enum Heed {
    /// A P1a: the ballot, and the promised ballot and the report that are answered.
    P1a(Numbers, Numbers, &'static [Parts]),
    /// A P2a: the pvalue, and the promised ballot that is answered, if any.
    P2a(Parts, Option<Numbers>),
}

const FIRST: Numbers = (0, 1, 0);

const SECOND: Numbers = (0, 2, 0);

static PROMISES: [Heed; 7] = [
    Heed::P2a((FIRST, 1, Token::X), None),
    Heed::P1a(FIRST, FIRST, &[]),
    Heed::P2a((FIRST, 1, Token::X), Some(FIRST)),
    Heed::P1a(SECOND, SECOND, &[(FIRST, 1, Token::X)]),
    Heed::P2a((FIRST, 2, Token::X), Some(SECOND)),
    Heed::P1a(FIRST, SECOND, &[(FIRST, 1, Token::X)]),
    Heed::P1a(SECOND, SECOND, &[(FIRST, 1, Token::X)]),
];

// A report has one pvalue a slot, of the greatest ballot, in rising slot.
static REPORTS: [Heed; 6] = [
    Heed::P1a(FIRST, FIRST, &[]),
    Heed::P2a((FIRST, 2, Token::Y), Some(FIRST)),
    Heed::P2a((FIRST, 1, Token::X), Some(FIRST)),
    Heed::P1a(
        SECOND,
        SECOND,
        &[(FIRST, 1, Token::X), (FIRST, 2, Token::Y)],
    ),
    Heed::P2a((SECOND, 1, Token::X), Some(SECOND)),
    Heed::P1a(
        SECOND,
        SECOND,
        &[(SECOND, 1, Token::X), (FIRST, 2, Token::Y)],
    ),
];

const THIRD: Numbers = (1, 1, 0);

// A report leaves out what was accepted in the same slot under a lesser ballot.
static ONE_A_SLOT: [Heed; 6] = [
    Heed::P1a(FIRST, FIRST, &[]),
    Heed::P2a((FIRST, 1, Token::X), Some(FIRST)),
    Heed::P1a(SECOND, SECOND, &[(FIRST, 1, Token::X)]),
    Heed::P2a((SECOND, 1, Token::X), Some(SECOND)),
    Heed::P2a((SECOND, 2, Token::Y), Some(SECOND)),
    Heed::P1a(
        THIRD,
        THIRD,
        &[(SECOND, 1, Token::X), (SECOND, 2, Token::Y)],
    ),
];

/// Whether the acceptor answers so.
fn heeds(alloc: Global, acceptor: &mut Acceptor<Token>, row: &Heed) -> Result<bool, Fail> {
    match row {
        Heed::P1a(asked, promised, report) => {
            let (own, told) = acceptor.on_p1a(ballot(*asked)?)?;
            let expected = pvalues(alloc, *report)?;
            Ok(own == ballot(*promised)? && told == expected)
        }
        Heed::P2a(asked, Some(promised)) => {
            let own = acceptor.on_p2a(pvalue(*asked)?)?;
            Ok(own == Some(ballot(*promised)?))
        }
        Heed::P2a(asked, None) => Ok(acceptor.on_p2a(pvalue(*asked)?)?.is_none()),
    }
}

/// The place of the first row that a new acceptor answers otherwise.
fn wrong_heed(alloc: Global, rows: &[Heed]) -> Result<Option<usize>, Fail> {
    let mut acceptor = Acceptor::new(alloc);
    for (place, row) in rows.iter().enumerate() {
        if !heeds(alloc, &mut acceptor, row)? {
            return Ok(Some(place));
        }
    }
    Ok(None)
}

#[test]
fn an_acceptor_promises_accepts_and_reports(rt: HostRuntime) -> Result<(), Fail> {
    for rows in [
        PROMISES.as_slice(),
        REPORTS.as_slice(),
        ONE_A_SLOT.as_slice(),
    ] {
        assert_eq!(rt; wrong_heed(rt.alloc(), rows)?, None);
    }
    Ok(())
}

/// A P1b that a scout hears: sender, promised ballot and report, and what the scout says.
type Scouted = (u8, Numbers, &'static [Parts], Said);

/// P1bs that a scout of three members hears.
static SCOUTED: [Scouted; 5] = [
    (1, FIRST, &[(FIRST, 1, Token::X)], Said::Wait),
    (1, FIRST, &[(FIRST, 1, Token::X)], Said::Wait),
    (4, FIRST, &[], Said::Wait),
    (2, SECOND, &[], Said::Preempted),
    (2, FIRST, &[], Said::Won),
];

/// What a scout or a commander says.
enum Said {
    Wait,
    Won,
    /// The ballot that it was told is greater.
    Preempted,
}

fn is_heard(heard: Heard, told: Ballot, said: &Said) -> bool {
    match said {
        Said::Wait => heard == Heard::Wait,
        Said::Won => heard == Heard::Adopted,
        Said::Preempted => heard == Heard::Preempted(told),
    }
}

/// Whether the scout says so.
fn hears(alloc: Global, scout: &mut Scout<Token>, row: &Scouted) -> Result<bool, Fail> {
    let (from, numbers, report, said) = row;
    let told = ballot(*numbers)?;
    let report = pvalues(alloc, *report)?;
    let heard = scout.on_p1b(*from, told, report.as_slice())?;
    Ok(is_heard(heard, told, said))
}

/// Whether the scout and a copy of it say so, and have gathered the same then.
fn hear_alike(alloc: Global, scout: &mut Scout<Token>, row: &Scouted) -> Result<bool, Fail> {
    let mut twin = scout.copy()?;
    let said = hears(alloc, scout, row)? && hears(alloc, &mut twin, row)?;
    Ok(said && twin.gathered() == scout.copy()?.gathered())
}

/// The place of the first row that the scout hears otherwise.
fn wrong_scouted(
    alloc: Global,
    scout: &mut Scout<Token>,
    rows: &[Scouted],
) -> Result<Option<usize>, Fail> {
    for (place, row) in rows.iter().enumerate() {
        if !hear_alike(alloc, scout, row)? {
            return Ok(Some(place));
        }
    }
    Ok(None)
}

/// Whether the scout has gathered these.
fn has_gathered(alloc: Global, scout: Scout<Token>, parts: &[Parts]) -> Result<bool, Fail> {
    let expected = pvalues(alloc, parts)?;
    Ok(scout.gathered() == expected)
}

#[test]
fn a_scout_hears_each_member_once(rt: HostRuntime) -> Result<(), Fail> {
    let mut scout: Scout<Token> = Scout::new(rt.alloc(), members(3)?, ballot(FIRST)?);
    assert_eq!(rt; wrong_scouted(rt.alloc(), &mut scout, &SCOUTED)?, None);
    assert!(rt; has_gathered(rt.alloc(), scout, &[(FIRST, 1, Token::X)])?);
    Ok(())
}

/// The ballot of node 3 that comes after one of round 1.
const LATER: Numbers = (2, 3, 0);

/// Promises that adopt a scout of three members. The second reports the greater ballot.
static ADOPTING: [Scouted; 2] = [
    (1, LATER, &[(FIRST, 1, Token::X)], Said::Wait),
    (2, LATER, &[((1, 2, 0), 1, Token::Y)], Said::Won),
];

/// A leader of node 3 that a ballot of round 1 preempted, and that has sent out a scout since.
fn woken_leader(alloc: Global, members: Members) -> Result<Leader<Token>, Fail>
    requires { is_member members 3 ≡ true }
    ensures scout { IfOk result (λ leader. IsSome leader.scout) }
{
    let mut leader = Leader::new(alloc, members, 3, 0);
    let preempted = leader.preempted(ballot((1, 2, 0))?);
    preempted.ok().ok_or("no ballot left")?;
    let mut letters = Vec::new(alloc);
    leader.wake(&mut letters)?;
    Ok(leader)
}

/// The letters of node 3 that ask three members to accept the pvalue.
fn asks_for(alloc: Global, parts: Parts) -> Result<Vec<Letter<Token>>, Fail> {
    let mut letters = Vec::new(alloc);
    for to in 1..=3 {
        letters.push(Letter {
            from: 3,
            to,
            body: LetterBody::P2a(pvalue(parts)?),
        })?;
    }
    Ok(letters)
}

#[test]
fn a_leader_takes_the_greatest_that_its_scout_gathered(rt: HostRuntime) -> Result<(), Fail> {
    let alloc = rt.alloc();
    let members = Members::new(3).ok_or("no members")?;
    let mut scout: Scout<Token> = Scout::new(alloc, members, ballot(LATER)?);
    assert_eq!(rt; wrong_scouted(alloc, &mut scout, &ADOPTING)?, None);
    let mut leader = woken_leader(alloc, members)?;
    let mut letters = Vec::new(alloc);
    leader.adopted(scout.gathered(), &mut letters)?;
    assert!(rt; letters == asks_for(alloc, (LATER, 1, Token::Y))?);
    Ok(())
}

const OWN: Numbers = (1, 1, 0);

/// P2bs that a commander of three members hears: sender and promised ballot, and what the commander says.
static VOTES: [(u8, Option<Numbers>, Said); 7] = [
    (1, Some(OWN), Said::Wait),
    (1, Some(OWN), Said::Wait),
    (2, None, Said::Wait),
    (2, Some((0, 3, 0)), Said::Wait),
    (2, Some((1, 2, 0)), Said::Preempted),
    (0, Some(OWN), Said::Wait),
    (3, Some(OWN), Said::Won),
];

fn is_voted(voted: Voted, told: Option<Ballot>, said: &Said) -> bool {
    match (said, told) {
        (Said::Wait, _) => voted == Voted::Wait,
        (Said::Won, _) => voted == Voted::Decided,
        (Said::Preempted, Some(told)) => voted == Voted::Preempted(told),
        (Said::Preempted, None) => false,
    }
}

/// Whether the commander says so.
fn votes(
    commander: &mut Commander<Token>,
    from: u8,
    numbers: Option<Numbers>,
    said: &Said,
) -> Result<bool, Fail> {
    let told = match numbers {
        Some(numbers) => Some(ballot(numbers)?),
        None => None,
    };
    let voted = commander.on_p2b(from, told);
    Ok(is_voted(voted, told, said))
}

#[test]
fn a_commander_counts_each_member_once(rt: HostRuntime) -> Result<(), Fail> {
    let own = pvalue((OWN, 5, Token::Y))?;
    let mut commander = Commander::new(members(3)?, own.copy()?);
    assert!(rt; *commander.pvalue() == own);
    for (from, numbers, said) in VOTES.iter() {
        let right = votes(&mut commander, *from, *numbers, said)?;
        assert!(rt; right, "{from} {numbers:?}");
    }
    Ok(())
}
