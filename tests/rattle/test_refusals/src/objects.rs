//! Objects that obey commands, by themselves, behind their filter, and in a replica.
use crate::dumps::{QUEUE, REPORTS, STALE, read};
use crate::outcome::Outcome;
use crate::subject::{Refusal, Subject, Then, walk};
use ballot::Slot;
use bean_queue::{PlainQueue, Queue};
use bean_words::{Body, Op, Reply};
use chronicle_text::Chronicle;
use object::{
    Act, Answer, Command, Effect, Key, Object, Once, Register, RegisterOp, RegisterReply,
    Submission, Value,
};
use replica::{Performed, Replica};
use std::alloc::{AllocError, Global};

/// What obeys commands.
trait Obeys<O: Object>: Drop {
    /// What it tells of a command beside its answers.
    type Told: PartialEq + Drop;

    /// Obeys the command, which is the next one, and appends the answers.
    fn obey(
        &mut self,
        command: &Command<O::Op>,
        out: &mut Vec<Answer<O::Reply>>,
    ) -> Result<Self::Told, AllocError>;
}

/// An object by itself.
#[derive(Drop)]
struct Bare<O: Object> {
    object: O,
}

impl<O: Object> Obeys<O> for Bare<O> {
    type Told = ();

    fn obey(
        &mut self,
        command: &Command<O::Op>,
        out: &mut Vec<Answer<O::Reply>>,
    ) -> Result<(), AllocError> {
        self.object.apply(command, out)
    }
}

impl<O: Object> Obeys<O> for Once<O> {
    type Told = Effect;

    fn obey(
        &mut self,
        command: &Command<O::Op>,
        out: &mut Vec<Answer<O::Reply>>,
    ) -> Result<Effect, AllocError> {
        self.apply(command, out)
    }
}

// The command is the next one that the replica knows to be decided.
impl<O: Object> Obeys<O> for Replica<O> {
    type Told = Option<Performed>;

    fn obey(
        &mut self,
        _command: &Command<O::Op>,
        out: &mut Vec<Answer<O::Reply>>,
    ) -> Result<Option<Performed>, AllocError> {
        self.perform(out)
    }
}

/// The commands of a course, and questions by which an object shows how it stands: commands that change nothing.
#[derive(Drop)]
struct Script<'a, Op> {
    commands: &'a [Submission<Op>],
    questions: &'a [Submission<Op>],
}

/// What obeys these commands, and its answers so far.
#[derive(Drop)]
struct Obeying<'a, O: Object, T: Obeys<O>> {
    alloc: Global,
    obeying: T,
    script: &'a Script<'a, O::Op>,
    answers: Vec<Answer<O::Reply>>,
}

impl<'a, O: Object, T: Obeys<O>> Obeying<'a, O, T> {
    fn new(alloc: Global, obeying: T, script: &'a Script<'a, O::Op>) -> Obeying<'a, O, T> {
        Obeying {
            alloc,
            obeying,
            script,
            answers: Vec::new(alloc),
        }
    }

    // What it answers to the questions.
    fn shows(&mut self) -> Result<Vec<Answer<O::Reply>>, AllocError> {
        let mut shown = Vec::new(self.alloc);
        for question in self.script.questions {
            self.obeying.obey(&question.command, &mut shown)?;
        }
        Ok(shown)
    }
}

impl<O: Object, T: Obeys<O>> Subject for Obeying<'_, O, T> {
    type Told = T::Told;

    fn make(&mut self, place: usize) -> Result<T::Told, Refusal> {
        let submission = self.script.commands.get(place).ok_or(Refusal::Other)?;
        let told = self.obeying.obey(&submission.command, &mut self.answers)?;
        Ok(told)
    }

    fn is_like(&mut self, other: &mut Self) -> Result<bool, AllocError> {
        Ok(self.answers == other.answers && self.shows()? == other.shows()?)
    }
}

// How it goes where both obey these commands, and have to give these answers.
fn obey_all<O: Object, T: Obeys<O>>(
    alloc: Global,
    both: (T, T),
    script: &Script<'_, O::Op>,
    expected: &[Answer<O::Reply>],
    then: Then,
) -> Outcome {
    let (first, second) = both;
    let calls = script.commands.len();
    let mut tried = Obeying::<O, T>::new(alloc, first, script);
    let mut other = Obeying::<O, T>::new(alloc, second, script);
    let outcome = walk(alloc, &mut tried, &mut other, calls, then);
    let is_expected = then == Then::Stop || tried.answers.as_slice() == expected;
    outcome.if_so(is_expected, calls)
}

/// A queue.
pub fn queue(alloc: Global, then: Then) -> Option<Outcome> {
    let dump = read(alloc, QUEUE)?;
    let both = two_bare::<Queue>(alloc)?;
    let script = commands_of(&dump);
    let expected = with_reports(alloc, dump.answers())?;
    Some(obey_all::<Queue, Bare<Queue>>(alloc, both, &script, expected.as_slice(), then))
}

/// A queue that goes over all jobs.
pub fn plain_queue(alloc: Global, then: Then) -> Option<Outcome> {
    let dump = read(alloc, QUEUE)?;
    let both = two_bare::<PlainQueue>(alloc)?;
    let script = commands_of(&dump);
    let expected = with_reports(alloc, dump.answers())?;
    Some(obey_all::<PlainQueue, Bare<PlainQueue>>(alloc, both, &script, expected.as_slice(), then))
}

// These answers, with the reports' texts where a report is empty.
fn with_reports(alloc: Global, answers: &[Answer<Reply>]) -> Option<Vec<Answer<Reply>>> {
    let mut texts = REPORTS.iter();
    let mut told = Vec::new(alloc);
    for answer in answers {
        let reply = match &answer.reply {
            Reply::Data(_) => Reply::Data(Body::new(alloc, texts.next()?).ok()?),
            reply => reply.copy().ok()?,
        };
        told.push(Answer {
            to: answer.to,
            reply,
        })
        .ok()?;
    }
    if texts.next().is_some() {
        return None;
    }
    Some(told)
}

// The commands of a dump. A queue shows how it stands by what it answers to the next ones.
fn commands_of(dump: &Chronicle<Op, Reply>) -> Script<'_, Op> {
    Script {
        commands: dump.submitted(),
        questions: &[],
    }
}

fn two_bare<O: Object>(alloc: Global) -> Option<(Bare<O>, Bare<O>)> {
    Some((by_itself(alloc)?, by_itself(alloc)?))
}

fn by_itself<O: Object>(alloc: Global) -> Option<Bare<O>> {
    let object = O::new(alloc).ok()?;
    Some(Bare { object })
}

/// A queue behind its filter.
pub fn filter(alloc: Global, then: Then) -> Option<Outcome> {
    let dump = read(alloc, STALE)?;
    let both = (Once::new(alloc).ok()?, Once::new(alloc).ok()?);
    let script = commands_of(&dump);
    Some(obey_all::<Queue, Once<Queue>>(alloc, both, &script, dump.answers(), then))
}

/// A replica of a queue, to which all commands are decided.
pub fn replica(alloc: Global, then: Then) -> Option<Outcome> {
    let dump = read(alloc, STALE)?;
    let both = (
        told(alloc, dump.submitted())?,
        told(alloc, dump.submitted())?,
    );
    let script = commands_of(&dump);
    Some(obey_all::<Queue, Replica<Queue>>(alloc, both, &script, dump.answers(), then))
}

// A replica that knows these commands to be decided, from slot 1 on.
fn told<O: Object>(alloc: Global, commands: &[Submission<O::Op>]) -> Option<Replica<O>> {
    let mut replica = Replica::new(alloc).ok()?;
    let mut number = 0_u64;
    for submission in commands {
        number = number.saturating_add(1);
        let command = submission.command.copy().ok()?;
        replica.learn(Slot::new(number)?, command).ok()?;
    }
    Some(replica)
}

/// A register that is written and read ten times. It shows how it stands by a read.
pub fn register(alloc: Global, then: Then) -> Option<Outcome> {
    let (commands, expected) = writes_and_reads(alloc)?;
    let read = asked(
        Key {
            session: 3,
            number: 1,
        },
        RegisterOp::Read,
    )?;
    let script = Script {
        commands: commands.as_slice(),
        questions: std::slice::from_ref(&read),
    };
    let both = two_bare::<Register>(alloc)?;
    let expected = expected.as_slice();
    Some(obey_all::<Register, Bare<Register>>(alloc, both, &script, expected, then))
}

type RegisterCourse = (Vec<Submission<RegisterOp>>, Vec<Answer<RegisterReply>>);

// A register is written the numbers 0 to 9, each of which is read at once, and what it has to answer.
fn writes_and_reads(alloc: Global) -> Option<RegisterCourse> {
    let mut commands = Vec::new(alloc);
    let mut expected = Vec::new(alloc);
    for value in 0..10 {
        let write = Key {
            session: 1,
            number: value + 1,
        };
        let read = Key {
            session: 2,
            number: value + 1,
        };
        commands.push(asked(write, RegisterOp::Write(value))?).ok()?;
        commands.push(asked(read, RegisterOp::Read)?).ok()?;
        expected.push(answered(write, RegisterReply::Done)).ok()?;
        expected
            .push(answered(read, RegisterReply::Value(value)))
            .ok()?;
    }
    Some((commands, expected))
}

fn asked(key: Key, op: RegisterOp) -> Option<Submission<RegisterOp>> {
    Some(Submission {
        command: Command::new(key, Act::Do(op))?,
        after: 0,
    })
}

fn answered(to: Key, reply: RegisterReply) -> Answer<RegisterReply> {
    Answer { to, reply }
}
