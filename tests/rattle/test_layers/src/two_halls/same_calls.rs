//! The same calls, as they are drawn, of both halls.
use crate::two_halls::both::{Both, Turn};
use crate::two_halls::draws::Draws;
use bean_queue::Queue;
use bean_words::{Op, Reply};
use object::Object;
use std::alloc::Global;
use std::test::Fail;

/// So many calls are drawn from a seed.
const CALLS: u32 = 600;

/// Both halls, and what is drawn for them.
#[derive(Drop)]
struct Course<O: Object> {
    both: Both<O>,
    draws: Draws,
    nodes: u8,
    /// Whether the one hall forgets. Then node 1 alone wakes, no letter is lost, and none is said again: of slots that the
    /// one has forgotten the other still tells who asks, and a leader that follows another one, and their mails differ.
    forgets: bool,
    alloc: Global,
}

impl<O: Object<Op = Op, Reply = Reply>> Course<O> {
    /// One, three or five nodes, the first of which wakes, and a session.
    fn new(alloc: Global, seed: u64, forgets: bool) -> Result<Course<O>, Fail> {
        let mut draws = Draws::new(seed);
        let members = draws.members()?;
        let mut both = Both::new(alloc, members)?;
        both.act(1, Turn::Wake);
        both.open_session()?;
        Ok(Course {
            both,
            draws,
            nodes: members.count(),
            forgets,
            alloc,
        })
    }

    /// Whether both halls answer alike, and look alike after each call.
    fn run(&mut self) -> Result<bool, Fail> {
        for _ in 0..CALLS {
            let node = self.draws.node(self.nodes);
            let answered = self.both.whole.answer_count();
            let alike = self.call(node)? && self.both.look_alike(node);
            if !alike || !self.both.have_same_replies() || !self.both.have_noted(answered)? {
                return Ok(false);
            }
        }
        Ok(true)
    }

    /// Draws a call, and makes it.
    fn call(&mut self, node: u8) -> Result<bool, Fail> {
        match self.draws.below(32) {
            0 => self.both.open_session(),
            1..5 => self.ask(node),
            5 => Ok(self.both.tick(node)),
            6 => Ok(!self.forgets || self.both.forget()),
            7 => Ok(self.meddle(node)),
            8 => Ok(self.both.repeat(node)),
            9..12 => Ok(self.both.act(node, Turn::Propose)),
            12..16 => Ok(self.both.act(node, Turn::Perform)),
            _ => self.deliver(node),
        }
    }

    /// What isn't drawn where the one hall forgets, but that node 1 wakes.
    fn meddle(&mut self, node: u8) -> bool {
        if self.forgets {
            return self.both.act(1, Turn::Wake);
        }
        match self.draws.below(8) {
            0 => self.both.act(node, Turn::Wake),
            1..4 => self.both.act(node, Turn::Nudge),
            _ => self.both.lose(node),
        }
    }

    /// A session's next command, or its last one again.
    fn ask(&mut self, node: u8) -> Result<bool, Fail> {
        let place = self.draws.place(self.both.session_count());
        if self.draws.below(4) == 0 {
            return Ok(self.both.resubmit(place, node));
        }
        let act = self.draws.act(self.alloc)?;
        self.both.submit(place, act, node)
    }

    /// A letter to the next node from this one on that has mail.
    fn deliver(&mut self, node: u8) -> Result<bool, Fail> {
        for next in (node..=self.nodes).chain(1..node) {
            if self.both.whole.work(next).mail {
                return self.both.deliver(next);
            }
        }
        self.both.deliver(node)
    }
}

/// How far the bases rose, and how many commands were answered.
#[derive(Drop)]
struct Sums {
    bases: u64,
    answers: u64,
}

/// The first of the seeds whose calls both halls don't answer alike.
fn first_wrong(alloc: Global, forgets: bool, sums: &mut Sums) -> Result<Option<u64>, Fail> {
    for seed in 0..134 {
        let mut course: Course<Queue> = Course::new(alloc, seed, forgets)?;
        if !course.run()? {
            return Ok(Some(seed));
        }
        let lean = &course.both.lean;
        sums.bases = sums.bases.saturating_add(lean.base());
        sums.answers = sums.answers.saturating_add(lean.answer_count());
    }
    Ok(None)
}

#[test]
fn both_answer_alike(rt: HostRuntime) -> Result<(), Fail> {
    let mut sums = Sums {
        bases: 0,
        answers: 0,
    };
    assert_eq!(rt; first_wrong(rt.alloc(), false, &mut sums)?, None);
    assert!(rt; sums.answers > 300, "{}", sums.answers);
    Ok(())
}

#[test]
fn so_they_do_while_one_forgets(rt: HostRuntime) -> Result<(), Fail> {
    let mut sums = Sums {
        bases: 0,
        answers: 0,
    };
    assert_eq!(rt; first_wrong(rt.alloc(), true, &mut sums)?, None);
    assert!(rt;
        sums.answers > 300 && sums.bases > 500,
        "{} {}",
        sums.answers,
        sums.bases
    );
    Ok(())
}
