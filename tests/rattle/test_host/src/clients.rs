//! The clients: what they asked for, and when they were answered.
use crate::draws::Draws;
use object::{Act, Command, Key, RegisterOp};
use std::alloc::Global;
use std::collections::BTreeMap;
use std::test::Fail;

/// So many sessions there are, from session 1 on.
pub const SESSIONS: usize = 8;

/// So many of them, the first ones, wait for an answer before they ask for their next command.
const PATIENT: usize = 4;

/// The command of a key: every third one of a session reads, and no two write the same number.
pub fn command(key: Key) -> Result<Command<RegisterOp>, Fail> {
    let op = if key.number % 3 == 0 {
        RegisterOp::Read
    } else {
        RegisterOp::Write(key.number * SESSIONS as u64 + u64::from(key.session))
    };
    Ok(Command::new(key, Act::Do(op)).ok_or("no command")?)
}

/// What the clients asked for, and what they were answered.
#[derive(Drop)]
pub struct Clients {
    /// The number of each session's last command.
    numbers: [u64; SESSIONS],
    /// When each command was asked for first.
    asked: BTreeMap<Key, u64>,
    /// When each command was answered first.
    answered: BTreeMap<Key, u64>,
}

impl Clients {
    pub fn new(alloc: Global) -> Clients {
        Clients {
            numbers: [0; SESSIONS],
            asked: BTreeMap::new(alloc),
            answered: BTreeMap::new(alloc),
        }
    }

    /// A session's next command, or one that it asked for before.
    pub fn draw(&mut self, draws: &mut Draws) -> Key {
        let place = draws.place(SESSIONS);
        let last = self.last(place);
        let may_go_on = place >= PATIENT || self.has_answer(last);
        if last.number == 0 || may_go_on && draws.below(4) > 0 {
            return self.next(place);
        }
        let number = if draws.below(3) > 0 {
            last.number
        } else {
            draws.between(1, last.number)
        };
        Key {
            session: last.session,
            number,
        }
    }

    /// The last command of the session at this place.
    fn last(&self, place: usize) -> Key {
        Key {
            session: place as u32 + 1,
            number: self.numbers[place],
        }
    }

    /// The next command of the session at this place.
    pub fn next(&mut self, place: usize) -> Key {
        self.numbers[place] += 1;
        self.last(place)
    }

    /// A command is asked for; whether it was asked for before.
    pub fn ask(&mut self, key: Key, time: u64) -> Result<bool, Fail> {
        if self.asked.contains_key(&key) {
            return Ok(true);
        }
        self.asked.insert(key, time)?;
        Ok(false)
    }

    /// A command is answered.
    pub fn answer(&mut self, key: Key, time: u64) -> Result<(), Fail> {
        if !self.answered.contains_key(&key) {
            self.answered.insert(key, time)?;
        }
        Ok(())
    }

    /// Whether a command was answered.
    pub fn has_answer(&self, key: Key) -> bool {
        self.answered.contains_key(&key)
    }

    /// What is wrong with this order of the commands that took effect, if anything is: nobody asked for a command in it,
    /// or one that was answered before another was asked for stands behind that.
    pub fn fault(&self, order: &[Key]) -> Option<&'static str> {
        let mut latest = 0;
        for key in order {
            let Some(asked) = self.asked.get(key) else {
                return Some("nobody asked for a command");
            };
            latest = latest.max(*asked);
            if self.answered.get(key).is_some_and(|time| *time < latest) {
                return Some("a command was answered before one was asked for that precedes it");
            }
        }
        None
    }
}
