//! Nodes that restart after each beginning of a run: what their acceptors keep, which ballots they take, and what is
//! chosen then.
use ballot::{Ballot, Letter, LetterBody, Members, Pvalue, Pvalues, Slot};
use bean_queue::Queue;
use bean_words::{Body, Op};
use object::{Act, Command, Key};
use std::alloc::Global;
use std::test::Fail;
use world::{Event, Schedule, World};

/// How many events there are after a restart.
const EVENTS: u32 = 500;

/// The first command.
pub(crate) const FIRST: Key = Key {
    session: 1,
    number: 1,
};

/// After so many steps of the run a majority has accepted the first command, in slot 1.
const CHOSEN_AFTER: usize = 10;

/// What happens next.
#[derive(Clone, Copy)]
pub(crate) enum Step {
    /// A session puts a job by its only command, at a node.
    Submit(u8, u32),
    Propose(u8),
    Wake(u8),
    Deliver(usize),
    Restart(u8),
    Perform(u8),
}

/// A leader gets its command accepted by a majority and is lost; another leader has it decided in place of its own.
pub(crate) static RUN: [Step; 25] = [
    Step::Submit(1, 1),
    Step::Propose(1),
    Step::Wake(1),
    Step::Deliver(3),
    Step::Deliver(4),
    Step::Deliver(6),
    Step::Deliver(7),
    Step::Deliver(0),
    Step::Deliver(8),
    Step::Deliver(9),
    Step::Restart(1),
    Step::Submit(2, 2),
    Step::Propose(2),
    Step::Deliver(14),
    Step::Wake(2),
    Step::Deliver(17),
    Step::Deliver(18),
    Step::Deliver(19),
    Step::Deliver(20),
    Step::Deliver(22),
    Step::Deliver(23),
    Step::Deliver(24),
    Step::Deliver(25),
    Step::Deliver(27),
    Step::Perform(2),
];

fn event(alloc: Global, step: Step) -> Result<Event<Op>, Fail> {
    Ok(match step {
        Step::Submit(node, session) => Event::Submit(node, put(alloc, session)?),
        Step::Propose(node) => Event::Propose(node),
        Step::Wake(node) => Event::Wake(node),
        Step::Deliver(letter) => Event::Deliver(letter),
        Step::Restart(node) => Event::Restart(node),
        Step::Perform(node) => Event::Perform(node),
    })
}

/// A session's first command, which puts a job. The first session's is `x`, that of any other `y`.
pub(crate) fn put(alloc: Global, session: u32) -> Result<Command<Op>, Fail> {
    let op = Op::Put {
        pri: 0,
        delay: 0,
        ttr: 9,
        body: Body::new(alloc, if session == 1 { b"x" } else { b"y" })?,
    };
    let key = Key { session, number: 1 };
    Ok(Command::new(key, Act::Do(op)).ok_or("no command")?)
}

/// Takes the steps of a beginning.
fn begin(alloc: Global, world: &mut World<Queue>, steps: &[Step]) -> Result<(), Fail> {
    for step in steps {
        world.step(event(alloc, *step)?)?;
    }
    Ok(())
}

/// A world after so many steps of the run.
pub(crate) fn begun(alloc: Global, members: Members, len: usize) -> Result<World<Queue>, Fail> {
    let mut world = World::new(alloc, members)?;
    let steps = RUN.get(..len).ok_or("no such beginning")?;
    begin(alloc, &mut world, steps)?;
    Ok(world)
}

/// Takes the events that come next.
fn go_on(world: &mut World<Queue>, members: Members) -> Result<(), Fail> {
    let mut schedule = Schedule::new(1);
    for _ in 0..EVENTS {
        let event = schedule.next(members, world.letters().len());
        world.step(event)?;
    }
    Ok(())
}

/// Whether the order goes on where a node restarts after so many steps, and what was chosen by then stays the first.
fn stays_in_order(alloc: Global, members: Members, len: usize, node: u8) -> Result<bool, Fail> {
    let mut world = begun(alloc, members, len)?;
    let before = world.order()?;
    world.step(Event::Restart(node))?;
    go_on(&mut world, members)?;
    let after = world.order()?;
    Ok(after.starts_with(before.as_slice()) && (len < CHOSEN_AFTER || begins_with_first(&after)))
}

/// Whether the first of the commands, if there is one, is the first that was submitted.
fn begins_with_first(order: &[Command<Op>]) -> bool {
    order.first().is_none_or(|command| command.key() == FIRST)
}

#[test]
fn a_restart_after_each_beginning_changes_no_order(rt: HostRuntime) -> Result<(), Fail> {
    let members = Members::new(3).ok_or("no members")?;
    for len in 0..=RUN.len() {
        for node in 1..=3 {
            let stays = stays_in_order(rt.alloc(), members, len, node)?;
            assert!(rt; stays, "{len} steps, node {node}");
        }
    }
    Ok(())
}

/// What an acceptor keeps after so many steps of the run: the node, the node whose ballot it promised, and the node under
/// whose ballot it accepted the first command in slot 1, if it did. The ballots are the first ones of their nodes.
type Kept = (usize, u8, u8, Option<u8>);

/// For each node the first and the last steps after which it keeps so much.
static KEPT: [Kept; 16] = [
    (4, 1, 1, None),
    (8, 1, 1, None),
    (9, 1, 1, Some(1)),
    (25, 1, 1, Some(1)),
    (5, 2, 1, None),
    (9, 2, 1, None),
    (10, 2, 1, Some(1)),
    (15, 2, 1, Some(1)),
    (16, 2, 2, Some(1)),
    (19, 2, 2, Some(1)),
    (20, 2, 2, Some(2)),
    (25, 2, 2, Some(2)),
    (17, 3, 2, None),
    (20, 3, 2, None),
    (21, 3, 2, Some(2)),
    (25, 3, 2, Some(2)),
];

/// The ballot of a node that never restarted nor gave up.
fn first_ballot(node: u8) -> Result<Ballot, Fail> {
    Ok(Ballot::new(0, node, 0).ok_or("no ballot")?)
}

/// What the acceptor answers to a P1a of no higher ballot than it promised.
fn expected(alloc: Global, kept: Kept) -> Result<LetterBody<Command<Op>>, Fail> {
    let (_, _, promised, accepted) = kept;
    let mut report = Pvalues::new(alloc);
    if let Some(node) = accepted {
        report.push(Pvalue {
            ballot: first_ballot(node)?,
            slot: Slot::new(1).ok_or("no slot")?,
            value: put(alloc, 1)?,
        })?;
    }
    Ok(LetterBody::P1b(first_ballot(promised)?, report))
}

/// Whether the node's acceptor answers so to node 1's P1a, which is letter 3, 4 or 5.
fn answers(alloc: Global, world: &mut World<Queue>, kept: Kept) -> Result<bool, Fail> {
    let (_, node, ..) = kept;
    world.step(Event::Deliver(usize::from(node) + 2))?;
    let answer = expected(alloc, kept)?;
    let letter = world.letters().last().ok_or("no letter")?;
    Ok(letter.body == answer)
}

/// Whether the node's acceptor keeps this, where the node restarts then or goes on.
fn keeps(alloc: Global, members: Members, kept: Kept, restarts: bool) -> Result<bool, Fail> {
    let (len, node, ..) = kept;
    let mut world = begun(alloc, members, len)?;
    if restarts {
        world.step(Event::Restart(node))?;
    }
    answers(alloc, &mut world, kept)
}

#[test]
fn an_acceptor_keeps_at_a_restart_what_it_promised_and_accepted(
    rt: HostRuntime,
) -> Result<(), Fail> {
    let members = Members::new(3).ok_or("no members")?;
    for row in KEPT.iter() {
        for restarts in [false, true] {
            let right = keeps(rt.alloc(), members, *row, restarts)?;
            assert!(rt; right, "{row:?}, restarts: {restarts}");
        }
    }
    Ok(())
}

/// The ballot of the letter, where it is the node's own.
fn own_ballot(letter: &Letter<Command<Op>>, node: u8) -> Option<Ballot> {
    if letter.from != node {
        return None;
    }
    match &letter.body {
        LetterBody::P1a(ballot) => Some(*ballot),
        LetterBody::P2a(pvalue) => Some(pvalue.ballot),
        _ => None,
    }
}

/// Whether the node, after a restart, asks for promises of a ballot that is greater than each of its own before.
fn takes_a_new_ballot(world: &mut World<Queue>, node: u8) -> Result<bool, Fail> {
    let sent = world.letters().len();
    world.step(Event::Restart(node))?;
    world.step(Event::Wake(node))?;
    let asked = world.letters().last().ok_or("no letter")?;
    let Some(ballot) = own_ballot(asked, node) else {
        return Ok(false);
    };
    for letter in world.letters().iter().take(sent) {
        if own_ballot(letter, node).is_some_and(|own| own >= ballot) {
            return Ok(false);
        }
    }
    Ok(true)
}

/// Whether it does so at two restarts after so many steps. The second ballot is above the first one.
fn takes_new_ballots(alloc: Global, members: Members, len: usize, node: u8) -> Result<bool, Fail> {
    let mut world = begun(alloc, members, len)?;
    Ok(takes_a_new_ballot(&mut world, node)? && takes_a_new_ballot(&mut world, node)?)
}

#[test]
fn a_node_takes_a_greater_ballot_at_each_restart(rt: HostRuntime) -> Result<(), Fail> {
    let members = Members::new(3).ok_or("no members")?;
    for len in 0..=RUN.len() {
        for node in 1..=3 {
            let risen = takes_new_ballots(rt.alloc(), members, len, node)?;
            assert!(rt; risen, "{len} steps, node {node}");
        }
    }
    Ok(())
}
