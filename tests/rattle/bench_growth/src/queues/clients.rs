use bean_queue::Queue;
use bean_words::{Body, Name, Names, Op, Reply};
use object::{Act, Answer, Command, Key, Object};
use std::alloc::Global;
use std::fmt::Write;

/// A queue, and the sessions that use it.
#[derive(Drop)]
pub struct Clients {
    alloc: Global,
    queue: Queue,
    /// The number of the last request.
    number: u64,
    /// What the last command brought.
    answers: Vec<Answer<Reply>>,
}

impl Clients {
    /// A new queue.
    pub fn new(alloc: Global) -> Option<Clients> {
        Some(Clients {
            alloc,
            queue: Queue::new(alloc).ok()?,
            number: 0,
            answers: Vec::new(alloc),
        })
    }

    /// The queue obeys a command.
    fn obey(&mut self, key: Key, act: Act<Op>) -> Option<()> {
        let command = Command::new(key, act)?;
        self.answers.clear();
        self.queue.apply(&command, &mut self.answers).ok()
    }

    /// A session asks for an operation.
    pub fn ask(&mut self, session: u32, op: Op) -> Option<()> {
        let number = self.number.checked_add(1)?;
        self.number = number;
        self.obey(Key { session, number }, Act::Do(op))
    }

    /// A second comes.
    pub fn tick(&mut self, second: u64) -> Option<()> {
        let key = Key {
            session: 0,
            number: second,
        };
        self.obey(key, Act::Tick)
    }

    /// The last command was answered so, last.
    pub fn expect(&self, reply: &Reply) -> Option<()> {
        if self.answers.last()?.reply == *reply {
            Some(())
        } else {
            None
        }
    }

    /// The last command told sessions, from this one on and so many, in their order, that a job of theirs is due soon.
    pub fn expect_deadlines(&self, first: u32, count: usize) -> Option<()> {
        if self.answers.len() != count {
            return None;
        }
        let mut session = first;
        for answer in &self.answers {
            expect_deadline(answer, session)?;
            session = session.checked_add(1)?;
        }
        Some(())
    }

    /// The last command was answered by `default` and the numbered tubes below this number, in that order.
    pub fn expect_numbered(&self, end: u32) -> Option<()> {
        let mut names = Names::new(self.alloc);
        names.push(Name::default_tube()).ok()?;
        self.add_numbered(end, &mut names)?;
        self.expect(&Reply::Tubes(names))
    }

    /// Adds the names of the numbered tubes below this number.
    fn add_numbered(&self, end: u32, names: &mut Names) -> Option<()> {
        for number in 0..end {
            let name = self.numbered_tube(number)?;
            names.push(name).ok()?;
        }
        Some(())
    }

    /// The last command was answered by the tubes of some letters, `default` and the tubes of others, in that order.
    pub fn expect_letters(&self, before: &[u8], after: &[u8]) -> Option<()> {
        let mut names = Names::new(self.alloc);
        self.add_letters(before, &mut names)?;
        names.push(Name::default_tube()).ok()?;
        self.add_letters(after, &mut names)?;
        self.expect(&Reply::Tubes(names))
    }

    /// Adds the names of the tubes of these letters.
    fn add_letters(&self, letters: &[u8], names: &mut Names) -> Option<()> {
        for letter in letters {
            let name = self.tube(*letter)?;
            names.push(name).ok()?;
        }
        Some(())
    }

    /// The tubes are listed, and are those of some letters, `default` and those of others.
    pub fn list_letters(&mut self, session: u32, before: &[u8], after: &[u8]) -> Option<()> {
        self.ask(session, Op::ListTubes)?;
        self.expect_letters(before, after)
    }

    /// A session puts a job, which gets this id.
    pub fn put_as(&mut self, session: u32, id: u64) -> Option<()> {
        self.put(session)?;
        self.expect(&Reply::Inserted(id))
    }

    /// A session reserves a job, and gets the one of this id.
    pub fn reserve_as(&mut self, session: u32, id: u64) -> Option<()> {
        self.reserve(session)?;
        self.expect_job(id)
    }

    /// A session deletes its job of this id.
    pub fn delete(&mut self, session: u32, id: u64) -> Option<()> {
        self.ask(session, Op::Delete(id))?;
        self.expect(&Reply::Deleted)
    }

    /// A session pauses the tube of this letter for no second, which ends a pause that it may have.
    pub fn end_pause(&mut self, session: u32, letter: u8) -> Option<()> {
        let tube = self.tube(letter)?;
        self.ask(session, Op::Pause { tube, seconds: 0 })?;
        self.expect(&Reply::Paused)
    }

    /// A session watches the numbered tube of this number too.
    pub fn watch_numbered(&mut self, session: u32, number: u32) -> Option<()> {
        let tube = self.numbered_tube(number)?;
        self.ask(session, Op::Watch(tube))
    }

    /// A session puts a job, which whoever reserves it may keep for so many seconds.
    pub fn put_for(&mut self, session: u32, ttr: u32) -> Option<()> {
        let body = self.body()?;
        let put = Op::Put {
            pri: 0,
            delay: 0,
            ttr,
            body,
        };
        self.ask(session, put)
    }

    /// A session uses the tube of this letter.
    pub fn use_tube(&mut self, session: u32, letter: u8) -> Option<()> {
        let tube = self.tube(letter)?;
        self.ask(session, Op::Use(tube))
    }

    /// A session uses the tube of this number, and puts a job into it.
    pub fn put_into_other(&mut self, session: u32, number: u32) -> Option<()> {
        let tube = self.other_tube(number)?;
        self.ask(session, Op::Use(tube))?;
        self.put(session)
    }

    /// A session pauses the tube of this number, for long.
    pub fn pause_other(&mut self, session: u32, number: u32) -> Option<()> {
        let tube = self.other_tube(number)?;
        let pause = Op::Pause {
            tube,
            seconds: u32::MAX,
        };
        self.ask(session, pause)?;
        self.expect(&Reply::Paused)
    }

    /// A session watches the tube of this letter too.
    pub fn watch(&mut self, session: u32, letter: u8) -> Option<()> {
        let tube = self.tube(letter)?;
        self.ask(session, Op::Watch(tube))
    }

    /// A session watches the tube of this number too.
    pub fn watch_other(&mut self, session: u32, number: u32) -> Option<()> {
        let tube = self.other_tube(number)?;
        self.ask(session, Op::Watch(tube))
    }

    /// A session watches the tube of this number no more.
    pub fn ignore_other(&mut self, session: u32, number: u32) -> Option<()> {
        let tube = self.other_tube(number)?;
        self.ask(session, Op::Ignore(tube))
    }

    /// A session watches the default tube no more.
    pub fn ignore_default(&mut self, session: u32) -> Option<()> {
        self.ask(session, Op::Ignore(Name::default_tube()))
    }

    /// A session puts a job, which whoever reserves it may keep for long.
    pub fn put(&mut self, session: u32) -> Option<()> {
        self.put_for(session, u32::MAX)
    }

    /// A session reserves a job, for which it waits if there is none.
    pub fn reserve(&mut self, session: u32) -> Option<()> {
        self.ask(session, Op::Reserve { seconds: None })
    }

    /// The last command was answered by the job of this id, last.
    pub fn expect_job(&self, id: u64) -> Option<()> {
        let body = self.body()?;
        self.expect(&Reply::Reserved { id, body })
    }

    /// What each job has.
    fn body(&self) -> Option<Body> {
        Body::new(self.alloc, b"a body").ok()
    }

    /// The name of the tube of this letter.
    fn tube(&self, letter: u8) -> Option<Name> {
        Name::new(self.alloc, &[letter]).ok()?
    }

    /// The name of the numbered tube of this number: `t` and four digits, so that they stand in the order of the numbers.
    fn numbered_tube(&self, number: u32) -> Option<Name> {
        let mut name = String::new(self.alloc);
        write!(name, "t{number:04}").ok()?;
        Name::new(self.alloc, name.as_bytes()).ok()?
    }

    /// The name of the tube of this number: `other` and the number.
    fn other_tube(&self, number: u32) -> Option<Name> {
        let mut name = String::new(self.alloc);
        write!(name, "other{number}").ok()?;
        Name::new(self.alloc, name.as_bytes()).ok()?
    }
}

/// The answer tells this session that a job of it is due soon.
fn expect_deadline(answer: &Answer<Reply>, session: u32) -> Option<()> {
    if answer.to.session == session && answer.reply == Reply::DeadlineSoon {
        Some(())
    } else {
        None
    }
}
