//! That both queues answer alike, whatever is drawn for them, also where they answer nobody in between.
ghost use Rattle.std.specs.Prelude.{◌<◌};

use bean_queue::{PlainQueue, Queue};
use bean_words::{Body, Name, Op, Reply};
use object::{Act, Answer, Command, Key, Object, Once};
use rand_core::{Rng, SeedableRng};
use rand_pcg::Lcg64Xsh32;
use std::alloc::Global;
use std::test::Fail;

/// How many commands a list has.
const COMMANDS: u64 = 300;

/// What a seed draws.
#[derive(Drop)]
struct Draws {
    words: Lcg64Xsh32,
}

impl Draws {
    fn new(seed: u64) -> Draws {
        Draws {
            words: Lcg64Xsh32::seed_from_u64(seed),
        }
    }

    /// A number below `n`.
    fn below(&mut self, n: u32) -> u32
        requires { 0 < n }
        ensures { result < n }
    {
        self.words.next_u32() % n
    }

    fn tube(&mut self, alloc: Global) -> Result<Name, Fail> {
        match self.below(3) {
            0 => Ok(Name::new(alloc, b"a")?.ok_or("no name")?),
            1 => Ok(Name::new(alloc, b"b")?.ok_or("no name")?),
            _ => Ok(Name::default_tube()),
        }
    }

    fn id(&mut self) -> u64 {
        u64::from(self.below(40)) + 1
    }

    /// No second, or some.
    fn seconds(&mut self) -> u32 {
        let most = if self.below(2) == 0 { 1 } else { 40 };
        self.below(most)
    }

    fn put(&mut self, alloc: Global) -> Result<Op, Fail> {
        Ok(Op::Put {
            pri: self.below(3),
            delay: self.seconds(),
            ttr: self.below(40),
            body: Body::new(alloc, b"x")?,
        })
    }

    fn reserve(&mut self) -> Op {
        let seconds = self.below(40);
        let ends = self.below(2) == 0;
        Op::Reserve {
            seconds: ends.then_some(seconds),
        }
    }

    fn tube_op(&mut self, alloc: Global) -> Result<Op, Fail> {
        let (tube, seconds) = (self.tube(alloc)?, self.seconds());
        Ok(match self.below(5) {
            0 => Op::Use(tube),
            1 => Op::Watch(tube),
            2 => Op::Ignore(tube),
            3 => Op::Pause { tube, seconds },
            _ => Op::StatsTube(tube),
        })
    }

    fn job_op(&mut self) -> Op {
        let (id, pri, delay) = (self.id(), self.below(3), self.seconds());
        match self.below(7) {
            0 => Op::Delete(id),
            1 => Op::Touch(id),
            2 => Op::Release { id, pri, delay },
            3 => Op::Bury { id, pri },
            4 => Op::Kick(pri),
            5 => Op::KickJob(id),
            _ => Op::ReserveJob(id),
        }
    }

    fn look(&mut self) -> Op {
        match self.below(9) {
            0 => Op::Peek(self.id()),
            1 => Op::PeekReady,
            2 => Op::PeekDelayed,
            3 => Op::PeekBuried,
            4 => Op::ListTubes,
            5 => Op::ListTubeUsed,
            6 => Op::ListTubesWatched,
            7 => Op::StatsJob(self.id()),
            _ => Op::Stats,
        }
    }

    fn op(&mut self, alloc: Global) -> Result<Op, Fail> {
        match self.below(10) {
            0..3 => self.put(alloc),
            3..5 => Ok(self.reserve()),
            5..6 => self.tube_op(alloc),
            6..9 => Ok(self.job_op()),
            _ => Ok(self.look()),
        }
    }

    /// The command of this place in a list. A number is at times no greater than its session's last one, and the second
    /// of a tick is about its place.
    fn command(&mut self, alloc: Global, place: u64) -> Result<Command<Op>, Fail> {
        let (session, act) = match self.below(16) {
            0..3 => (0, Act::Tick),
            3 => (self.below(4) + 1, Act::Close),
            _ => (self.below(4) + 1, Act::Do(self.op(alloc)?)),
        };
        let number = place.saturating_add(u64::from(self.below(3)));
        Ok(Command::new(Key { session, number }, act).ok_or("no command")?)
    }
}

/// What is answered to the list of a seed.
fn answers_of<O: Object<Op = Op, Reply = Reply>>(
    alloc: Global,
    seed: u64,
) -> Result<Vec<Answer<Reply>>, Fail> {
    let mut draws = Draws::new(seed);
    let mut queue: Once<O> = Once::new(alloc)?;
    let mut answers = Vec::new(alloc);
    for place in 1..=COMMANDS {
        queue.apply(&draws.command(alloc, place)?, &mut answers)?;
    }
    Ok(answers)
}

/// What is answered to the later half of the list of a seed, where nobody is answered before.
fn later_answers_of<O: Object<Op = Op, Reply = Reply>>(
    alloc: Global,
    seed: u64,
) -> Result<Vec<Answer<Reply>>, Fail> {
    let mut draws = Draws::new(seed);
    let mut queue: Once<O> = Once::new(alloc)?;
    let mut answers = Vec::new(alloc);
    for place in 1..=COMMANDS {
        let command = draws.command(alloc, place)?;
        if place <= COMMANDS / 2 {
            queue.obey(&command)?;
        } else {
            queue.apply(&command, &mut answers)?;
        }
    }
    Ok(answers)
}

/// Whether these are the last of all answers, and some.
fn end(all: &[Answer<Reply>], last: &[Answer<Reply>]) -> bool {
    match all.len().checked_sub(last.len()) {
        Some(before) => !last.is_empty() && &all[before..] == last,
        None => false,
    }
}

/// Whether a session was given a job.
fn gives(answers: &[Answer<Reply>]) -> bool {
    answers
        .iter()
        .any(|answer| matches!(&answer.reply, Reply::Reserved { .. }))
}

#[test]
fn both_queues_answer_alike(rt: HostRuntime) -> Result<(), Fail> {
    for seed in 0..200 {
        let plain = answers_of::<PlainQueue>(rt.alloc(), seed)?;
        assert!(rt; gives(plain.as_slice()), "seed {seed}");
        assert!(rt;
            plain == answers_of::<Queue>(rt.alloc(), seed)?,
            "seed {seed}"
        );
    }
    Ok(())
}

#[test]
fn who_answers_nobody_obeys_alike(rt: HostRuntime) -> Result<(), Fail> {
    for seed in 0..200 {
        let all = answers_of::<Queue>(rt.alloc(), seed)?;
        let last = later_answers_of::<Queue>(rt.alloc(), seed)?;
        let plain = later_answers_of::<PlainQueue>(rt.alloc(), seed)?;
        assert!(rt; end(all.as_slice(), last.as_slice()), "seed {seed}");
        assert!(rt; last == plain, "seed {seed}");
    }
    Ok(())
}
