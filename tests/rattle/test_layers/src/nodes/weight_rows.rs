//! Members of other weights than 1: their majorities, and what a scout and a commander of them say.
use crate::nodes::node_rows::Token;
use ballot::{Ballot, MemberSet, Members, Pvalue, Slot};
use scout_commander::{Commander, Heard, Scout, Voted};
use std::alloc::Global;
use std::test::Fail;

/// Weights, their majority, and sets of nodes with whether they are one.
type Weighted = (&'static [u32], u32, &'static [(&'static [u8], bool)]);

static MAJORITIES: [Weighted; 4] = [
    (
        &[3, 1, 1],
        3,
        &[(&[1], true), (&[2, 3], false), (&[1, 2, 3], true)],
    ),
    (
        &[2, 1, 1],
        3,
        &[
            (&[1, 2], true),
            (&[1, 3], true),
            (&[2, 3], false),
            (&[1], false),
        ],
    ),
    (&[1, 1], 2, &[(&[1], false), (&[2], false), (&[1, 2], true)]),
    (
        &[1000, 1000, 1000, 1000, 1000, 1000, 1000],
        3501,
        &[(&[1, 2, 3], false), (&[1, 2, 3, 4], true)],
    ),
];

/// Weights of no members.
static NO_MEMBERS: [&[u32]; 5] = [&[], &[0, 1], &[1, 0], &[1, 1001], &[1, 1, 1, 1, 1, 1, 1, 1]];

pub(crate) fn weighted(weights: &[u32]) -> Result<Members, Fail> {
    Ok(Members::weighted(weights).ok_or("no members")?)
}

fn set_of(nodes: &[u8]) -> MemberSet {
    let mut set = MemberSet::nobody();
    for node in nodes {
        set.add(*node);
    }
    set
}

/// The set whose look at the members is wrong.
fn wrong_set(row: &Weighted) -> Result<Option<&'static [u8]>, Fail> {
    let (weights, _, sets) = row;
    let members = weighted(weights)?;
    for (nodes, is_one) in sets.iter() {
        if members.is_majority(&set_of(nodes)) != *is_one {
            return Ok(Some(*nodes));
        }
    }
    Ok(None)
}

#[test]
fn majorities_are_of_weight(rt: HostRuntime) -> Result<(), Fail> {
    for row in MAJORITIES.iter() {
        let (weights, majority, _) = row;
        assert_eq!(rt; weighted(weights)?.majority(), *majority);
        assert_eq!(rt; wrong_set(row)?, None);
    }
    for weights in NO_MEMBERS.iter() {
        assert!(rt; Members::weighted(*weights).is_none(), "{weights:?}");
    }
    Ok(())
}

#[test]
fn each_member_weighs_what_was_given(rt: HostRuntime) -> Result<(), Fail> {
    let members = weighted(&[3, 1, 1])?;
    assert_eq!(rt; members.total(), 5);
    assert_eq!(rt; members.weight(0), None);
    assert_eq!(rt; members.weight(1), Some(3));
    assert_eq!(rt; members.weight(3), Some(1));
    assert_eq!(rt; members.weight(4), None);
    assert!(rt; !members.is_unweighted());
    let even = Members::new(3).ok_or("no members")?;
    assert!(rt; weighted(&[1, 1, 1])? == even);
    assert!(rt; even.is_unweighted());
    Ok(())
}

fn own() -> Result<Ballot, Fail> {
    Ok(Ballot::new(0, 1, 0).ok_or("no ballot")?)
}

/// What a scout of these weights says at the promises of these nodes, one after the other.
fn last_heard(alloc: Global, weights: &[u32], nodes: &[u8]) -> Result<Heard, Fail> {
    let mut scout: Scout<Token> = Scout::new(alloc, weighted(weights)?, own()?);
    let mut said = Heard::Wait;
    for node in nodes {
        said = scout.on_p1b(*node, own()?, &[])?;
    }
    Ok(said)
}

#[test]
fn a_scout_hears_weights(rt: HostRuntime) -> Result<(), Fail> {
    let alloc = rt.alloc();
    assert!(rt; last_heard(alloc, &[3, 1, 1], &[1])? == Heard::Adopted);
    assert!(rt; last_heard(alloc, &[3, 1, 1], &[2])? == Heard::Wait);
    assert!(rt; last_heard(alloc, &[3, 1, 1], &[2, 3])? == Heard::Wait);
    assert!(rt; last_heard(alloc, &[2, 1, 1], &[1, 1])? == Heard::Wait);
    assert!(rt; last_heard(alloc, &[2, 1, 1], &[1, 2])? == Heard::Adopted);
    Ok(())
}

/// What a commander of these weights says at the votes of these nodes, one after the other.
fn last_voted(weights: &[u32], nodes: &[u8]) -> Result<Voted, Fail> {
    let pvalue = Pvalue {
        ballot: own()?,
        slot: Slot::new(1).ok_or("no slot")?,
        value: Token::X,
    };
    let mut commander = Commander::new(weighted(weights)?, pvalue);
    let mut said = Voted::Wait;
    for node in nodes {
        said = commander.on_p2b(*node, Some(own()?));
    }
    Ok(said)
}

#[test]
fn a_commander_counts_weights(rt: HostRuntime) -> Result<(), Fail> {
    assert!(rt; last_voted(&[3, 1, 1], &[1])? == Voted::Decided);
    assert!(rt; last_voted(&[3, 1, 1], &[3, 2])? == Voted::Wait);
    assert!(rt; last_voted(&[2, 1, 1], &[1, 1, 1])? == Voted::Wait);
    assert!(rt; last_voted(&[2, 1, 1], &[3, 1])? == Voted::Decided);
    Ok(())
}
