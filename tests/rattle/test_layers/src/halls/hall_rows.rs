//! Halls of one node, as tables: what each call answers, what it refuses, and the dump of what happened.
use ballot::Members;
use bean_queue::Queue;
use bean_words::{Body, Op, Reply};
use chronicle_text::WriteText;
use hall::{Hall, HallError, Ticket};
use object::{Act, Object};
use std::alloc::Global;
use std::test::Fail;

/// What a session asks for.
enum Asked {
    /// A put of a body of one byte.
    Put(u8),
    Reserve,
    Delete(u64),
    Close,
}

fn act_of(alloc: Global, asked: &Asked) -> Result<Act<Op>, Fail> {
    match asked {
        Asked::Put(byte) => put(alloc, *byte),
        Asked::Reserve => Ok(Act::Do(Op::Reserve { seconds: None })),
        Asked::Delete(id) => Ok(Act::Do(Op::Delete(*id))),
        Asked::Close => Ok(Act::Close),
    }
}

fn put(alloc: Global, byte: u8) -> Result<Act<Op>, Fail> {
    let body = Body::new(alloc, &[byte])?;
    Ok(Act::Do(Op::Put {
        pri: 0,
        delay: 0,
        ttr: 9,
        body,
    }))
}

/// A call of the hall, at a node.
enum Call {
    Submit(Asked, u8),
    Resubmit(u8),
    Note,
    Tick(u64, u8),
    Deliver(u8),
    Lose(u8),
    Repeat(u8),
    Wake(u8),
    Nudge(u8),
    Propose(u8),
    Perform(u8),
    Restart(u8),
}

/// What a call answers.
#[derive(Drop, PartialEq, Eq)]
enum Answer {
    Done,
    Yes,
    No,
    Refused(HallError),
}

/// The answer of a call that has nothing to tell.
fn done(answered: Result<(), HallError>) -> Answer {
    match answered {
        Ok(()) => Answer::Done,
        Err(refused) => Answer::Refused(refused),
    }
}

/// The answer of a call that tells whether it did something.
fn told(answered: Result<bool, HallError>) -> Answer {
    match answered {
        Ok(true) => Answer::Yes,
        Ok(false) => Answer::No,
        Err(refused) => Answer::Refused(refused),
    }
}

/// Makes the call, for a session where it is one.
fn make<O: Object<Op = Op, Reply = Reply>>(
    alloc: Global,
    hall: &mut Hall<O>,
    ticket: &mut Ticket<O>,
    call: &Call,
) -> Result<Answer, Fail> {
    match call {
        Call::Submit(asked, node) => {
            let act = act_of(alloc, asked)?;
            Ok(done(hall.submit(ticket, act, *node)))
        }
        Call::Resubmit(node) => Ok(done(hall.resubmit(ticket, *node))),
        Call::Note => Ok(told(hall.note(ticket).map_err(HallError::from))),
        _ => Ok(happen(hall, call)),
    }
}

/// Makes a call that is no session's.
fn happen<O: Object<Op = Op, Reply = Reply>>(hall: &mut Hall<O>, call: &Call) -> Answer {
    match call {
        Call::Tick(second, node) => done(hall.tick(*second, *node)),
        Call::Deliver(node) => told(hall.deliver(*node)),
        Call::Lose(node) => told(hall.lose(*node)),
        Call::Repeat(node) => told(hall.repeat(*node)),
        Call::Wake(node) => done(hall.wake(*node)),
        Call::Nudge(node) => done(hall.nudge(*node)),
        Call::Propose(node) => told(hall.propose(*node)),
        Call::Perform(node) => told(hall.perform(*node)),
        Call::Restart(node) => done(hall.restart(*node)),
        _ => Answer::Refused(HallError::BadNumber),
    }
}

/// What can be seen of a hall and a ticket.
enum Sight {
    /// The answer to the ticket is that this job was inserted, or there is none.
    Answered(Option<u64>),
    /// The ticket has noted that this job was inserted.
    Noted(u64),
    /// The ticket agrees with the hall.
    Agrees,
    LastSecond(u64),
    /// The dump's text.
    Dump(&'static [u8]),
}

fn is_inserted(reply: Option<&Reply>, id: Option<u64>) -> bool {
    match id {
        Some(id) => reply == Some(&Reply::Inserted(id)),
        None => reply.is_none(),
    }
}

fn is_dumped<O: Object<Op = Op, Reply = Reply>>(
    alloc: Global,
    hall: &Hall<O>,
    text: &[u8],
) -> Result<bool, Fail> {
    let mut out = Vec::new(alloc);
    hall.dump()?.write_text(&mut out)?;
    Ok(out.as_slice() == text)
}

/// Whether they look so.
fn shows<O: Object<Op = Op, Reply = Reply>>(
    alloc: Global,
    hall: &Hall<O>,
    ticket: &Ticket<O>,
    sight: &Sight,
) -> Result<bool, Fail> {
    match sight {
        Sight::Answered(id) => Ok(is_inserted(hall.take_answer(ticket), *id)),
        Sight::Noted(id) => Ok(is_inserted(ticket.noted(), Some(*id))),
        Sight::Agrees => Ok(hall.agrees(ticket)),
        Sight::LastSecond(second) => Ok(hall.last_second() == *second),
        Sight::Dump(text) => is_dumped(alloc, hall, *text),
    }
}

/// What a hall and a ticket go through.
enum Step {
    /// The call answers this.
    Makes(Call, Answer),
    /// They look so.
    Shows(Sight),
    /// Another hall's first ticket is refused, and doesn't agree.
    RefusesAnother,
}

fn refuses_another<O: Object<Op = Op, Reply = Reply>>(
    alloc: Global,
    hall: &mut Hall<O>,
) -> Result<bool, Fail> {
    let mut other = one_node::<O>(alloc)?.open_session()?;
    let foreign = hall.submit(&mut other, Act::Close, 1);
    Ok(foreign == Err(HallError::BadNumber) && !hall.agrees(&other))
}

/// The step goes as it says.
fn goes<O: Object<Op = Op, Reply = Reply>>(
    alloc: Global,
    hall: &mut Hall<O>,
    ticket: &mut Ticket<O>,
    step: &Step,
) -> Result<bool, Fail> {
    match step {
        Step::Makes(call, expected) => Ok(make(alloc, hall, ticket, call)? == *expected),
        Step::Shows(sight) => shows(alloc, hall, ticket, sight),
        Step::RefusesAnother => refuses_another(alloc, hall),
    }
}

/// The place of the first step that they take otherwise.
fn wrong_step<O: Object<Op = Op, Reply = Reply>>(
    alloc: Global,
    hall: &mut Hall<O>,
    ticket: &mut Ticket<O>,
    steps: &[Step],
) -> Result<Option<usize>, Fail> {
    for (place, step) in steps.iter().enumerate() {
        if !goes(alloc, hall, ticket, step)? {
            return Ok(Some(place));
        }
    }
    Ok(None)
}

/// A hall of one node.
fn one_node<O: Object<Op = Op, Reply = Reply>>(alloc: Global) -> Result<Hall<O>, Fail> {
    let members = Members::new(1).ok_or("no members")?;
    Ok(Hall::new(alloc, members)?)
}

/// The same of the first ticket of a new hall.
fn wrong_step_of_new<O: Object<Op = Op, Reply = Reply>>(
    alloc: Global,
    steps: &[Step],
) -> Result<Option<usize>, Fail> {
    let mut hall = one_node::<O>(alloc)?;
    let mut ticket = hall.open_session()?;
    wrong_step(alloc, &mut hall, &mut ticket, steps)
}

/// The dump of a put that was answered.
const ONE_PUT: &[u8] =
    b"beanpax-dump 1\nmembers 1\nS 1 1 put 0 0 9 78\nA 1 1 INSERTED 1\nO 1 1\nend\n";

/// A put, until all its letters are delivered and it is performed, and what comes after it.
static PUT: [Step; 28] = [
    Step::Makes(Call::Submit(Asked::Put(b'x'), 1), Answer::Done),
    Step::Makes(Call::Propose(1), Answer::Yes),
    Step::Makes(Call::Propose(1), Answer::No),
    Step::Makes(Call::Wake(1), Answer::Done),
    Step::Makes(Call::Perform(1), Answer::No),
    Step::Makes(Call::Deliver(1), Answer::Yes),
    Step::Makes(Call::Deliver(1), Answer::Yes),
    Step::Makes(Call::Deliver(1), Answer::Yes),
    Step::Makes(Call::Deliver(1), Answer::Yes),
    Step::Makes(Call::Deliver(1), Answer::Yes),
    Step::Makes(Call::Deliver(1), Answer::Yes),
    Step::Makes(Call::Deliver(1), Answer::No),
    Step::Makes(Call::Perform(1), Answer::Yes),
    Step::Shows(Sight::Answered(Some(1))),
    Step::Shows(Sight::Dump(ONE_PUT)),
    Step::Makes(Call::Lose(1), Answer::No),
    Step::Makes(Call::Repeat(1), Answer::No),
    Step::Makes(Call::Tick(0, 1), Answer::Refused(HallError::BadNumber)),
    Step::Makes(Call::Tick(1, 1), Answer::Done),
    Step::Makes(Call::Restart(9), Answer::Refused(HallError::NoSuchNode)),
    Step::Makes(Call::Note, Answer::Yes),
    Step::Makes(Call::Note, Answer::No),
    Step::Makes(Call::Resubmit(1), Answer::Done),
    Step::Makes(Call::Nudge(1), Answer::Done),
    Step::Makes(Call::Restart(1), Answer::Done),
    Step::Shows(Sight::Noted(1)),
    Step::Shows(Sight::Agrees),
    Step::Shows(Sight::LastSecond(1)),
];

/// A put, one of whose letters comes twice.
static PUT_TWICE: [Step; 14] = [
    Step::Makes(Call::Submit(Asked::Put(b'x'), 1), Answer::Done),
    Step::Makes(Call::Propose(1), Answer::Yes),
    Step::Makes(Call::Repeat(1), Answer::Yes),
    Step::Makes(Call::Wake(1), Answer::Done),
    Step::Makes(Call::Deliver(1), Answer::Yes),
    Step::Makes(Call::Deliver(1), Answer::Yes),
    Step::Makes(Call::Deliver(1), Answer::Yes),
    Step::Makes(Call::Deliver(1), Answer::Yes),
    Step::Makes(Call::Deliver(1), Answer::Yes),
    Step::Makes(Call::Deliver(1), Answer::Yes),
    Step::Makes(Call::Deliver(1), Answer::Yes),
    Step::Makes(Call::Deliver(1), Answer::No),
    Step::Makes(Call::Perform(1), Answer::Yes),
    Step::Shows(Sight::Dump(ONE_PUT)),
];

/// The same, where the only node weighs 5.
const ONE_HEAVY_PUT: &[u8] =
    b"beanpax-dump 2\nmembers 1\nweights 5\nS 1 1 put 0 0 9 78\nA 1 1 INSERTED 1\nO 1 1\nend\n";

/// A put at a node that has a weight of its own.
static HEAVY_PUT: [Step; 11] = [
    Step::Makes(Call::Submit(Asked::Put(b'x'), 1), Answer::Done),
    Step::Makes(Call::Propose(1), Answer::Yes),
    Step::Makes(Call::Wake(1), Answer::Done),
    Step::Makes(Call::Deliver(1), Answer::Yes),
    Step::Makes(Call::Deliver(1), Answer::Yes),
    Step::Makes(Call::Deliver(1), Answer::Yes),
    Step::Makes(Call::Deliver(1), Answer::Yes),
    Step::Makes(Call::Deliver(1), Answer::Yes),
    Step::Makes(Call::Deliver(1), Answer::Yes),
    Step::Makes(Call::Perform(1), Answer::Yes),
    Step::Shows(Sight::Dump(ONE_HEAVY_PUT)),
];

#[test]
fn a_weight_is_in_the_dump(rt: HostRuntime) -> Result<(), Fail> {
    let mut hall: Hall<Queue> = Hall::new(
        rt.alloc(),
        Members::weighted(&[5]).ok_or("no members")?,
    )?;
    let mut ticket = hall.open_session()?;
    let wrong = wrong_step(rt.alloc(), &mut hall, &mut ticket, &HEAVY_PUT)?;
    assert_eq!(rt; wrong, None);
    Ok(())
}

/// What a ticket may not hand in.
static BUSY: [Step; 9] = [
    Step::Makes(Call::Submit(Asked::Reserve, 1), Answer::Done),
    Step::Makes(
        Call::Submit(Asked::Delete(1), 1),
        Answer::Refused(HallError::Busy),
    ),
    Step::Shows(Sight::Answered(None)),
    Step::Makes(Call::Note, Answer::No),
    Step::Makes(Call::Submit(Asked::Close, 1), Answer::Done),
    Step::Makes(
        Call::Submit(Asked::Close, 1),
        Answer::Refused(HallError::Busy),
    ),
    Step::Shows(Sight::Answered(None)),
    Step::Makes(
        Call::Submit(Asked::Close, 2),
        Answer::Refused(HallError::NoSuchNode),
    ),
    Step::RefusesAnother,
];

#[test]
fn halls_go_so(rt: HostRuntime) -> Result<(), Fail> {
    for (title, steps) in [
        ("a put is answered and dumped", PUT.as_slice()),
        (
            "a letter that comes twice changes nothing",
            PUT_TWICE.as_slice(),
        ),
        ("a ticket is refused", BUSY.as_slice()),
    ] {
        assert_eq!(rt;
            wrong_step_of_new::<Queue>(rt.alloc(), steps)?,
            None,
            "{title}"
        );
    }
    Ok(())
}
