//! A queue with one client.
use bean_queue::Queue;
use bean_words::{Op, Reply};
use object::{Act, Command, Key, Once};
use session::{Service, ServiceFault};
use std::alloc::{AllocError, Global};

// How many seconds pass while the client waits, before the service stops.
const LONGEST_WAIT: u64 = 10;

/// A queue and its clock, with one client.
#[derive(Drop)]
pub struct OneClient {
    alloc: Global,
    queue: Once<Queue>,
    now: u64,
    /// How many commands the client gave.
    pub given: u64,
    pub times_closed: u64,
}

impl OneClient {
    pub fn new(alloc: Global) -> Result<OneClient, AllocError> {
        Ok(OneClient {
            alloc,
            queue: Once::new(alloc)?,
            now: 0,
            given: 0,
            times_closed: 0,
        })
    }

    // The answer that comes of a command, if there is one.
    fn obey(&mut self, key: Key, act: Act<Op>) -> Result<Option<Reply>, ServiceFault> {
        let command = Command::new(key, act).ok_or(ServiceFault::Stopped)?;
        let mut answers = Vec::new(self.alloc);
        match self.queue.apply(&command, &mut answers) {
            Ok(_) => Ok(answers.pop().map(|answer| answer.reply)),
            Err(_) => Err(ServiceFault::Refused),
        }
    }

    // The client's next command.
    fn give(&mut self, act: Act<Op>) -> Result<Option<Reply>, ServiceFault> {
        self.given = self.given.saturating_add(1);
        let key = Key {
            session: 1,
            number: self.given,
        };
        self.obey(key, act)
    }

    // A second passes.
    fn tick(&mut self) -> Result<Option<Reply>, ServiceFault> {
        self.now = self.now.saturating_add(1);
        let key = Key {
            session: 0,
            number: self.now,
        };
        self.obey(key, Act::Tick)
    }

    // Seconds pass until the client is answered.
    fn wait(&mut self) -> Result<Reply, ServiceFault> {
        for _ in 0..LONGEST_WAIT {
            if let Some(reply) = self.tick()? {
                return Ok(reply);
            }
        }
        Err(ServiceFault::Stopped)
    }
}

impl Service for OneClient {
    ghost asks = { λ _ _ _ _. Unit {0} };

    ghost closes = { λ _ _ _. Unit {0} };

    fn ask(&mut self, op: Op) -> Result<Reply, ServiceFault> {
        match self.give(Act::Do(op))? {
            Some(reply) => Ok(reply),
            None => self.wait(),
        }
    }

    fn close(&mut self) -> Result<(), ServiceFault> {
        self.times_closed = self.times_closed.saturating_add(1);
        self.give(Act::Close)?;
        Ok(())
    }
}
