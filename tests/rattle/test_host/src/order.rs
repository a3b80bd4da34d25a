//! The one order of the commands, and a plain register that obeys it.
use crate::clients::{SESSIONS, command};
use ballot::{LetterBody, Slot};
use object::{Answer, Command, Key, Object, Once, Register, RegisterOp, RegisterReply};
use std::alloc::Global;
use std::collections::BTreeMap;
use std::test::Fail;

/// What a plain register makes of a slot.
#[derive(Drop)]
struct Obeyed {
    key: Key,
    /// None where a later command of its session came before.
    answer: Option<Answer<RegisterReply>>,
}

/// What was decided, and what a plain register makes of it.
#[derive(Drop)]
pub struct Order {
    alloc: Global,
    /// By its slot the key of each command that a letter said is decided.
    decided: BTreeMap<u64, Key>,
    /// From slot 1 on up to the first one of which no decision was said.
    obeyed: Vec<Obeyed>,
    register: Register,
    latest: [u64; SESSIONS],
    /// The first slot that no host has performed.
    reached: u64,
}

impl Order {
    pub fn new(alloc: Global) -> Result<Order, Fail> {
        Ok(Order {
            alloc,
            decided: BTreeMap::new(alloc),
            obeyed: Vec::new(alloc),
            register: Register::new(alloc)?,
            latest: [0; SESSIONS],
            reached: 1,
        })
    }

    /// The first slot that no host has performed.
    pub fn reached(&self) -> u64 {
        self.reached
    }

    /// Takes down a decision that is sent; false where another one was sent for its slot.
    pub fn hear(&mut self, body: &LetterBody<Command<RegisterOp>>) -> Result<bool, Fail> {
        let LetterBody::Decision(slot, command) = body else {
            return Ok(true);
        };
        if let Some(key) = self.decided.get(&slot.number()) {
            return Ok(*key == command.key());
        }
        self.decided.insert(slot.number(), command.key())?;
        self.obey_next()?;
        Ok(true)
    }

    /// The plain register obeys what it hasn't yet, as far as it is decided.
    fn obey_next(&mut self) -> Result<(), Fail> {
        for _ in 0..u64::MAX {
            let slot = self.obeyed.len() as u64 + 1;
            let Some(key) = self.decided.get(&slot).copied() else {
                return Ok(());
            };
            let answer = self.obey(key)?;
            self.obeyed.push(Obeyed { key, answer })?;
        }
        Ok(())
    }

    /// The plain register obeys a command, unless its session had a later one.
    fn obey(&mut self, key: Key) -> Result<Option<Answer<RegisterReply>>, Fail> {
        let latest = &mut self.latest[(key.session - 1) as usize];
        if key.number <= *latest {
            return Ok(None);
        }
        *latest = key.number;
        let mut answers = Vec::new(self.alloc);
        self.register.apply(&command(key)?, &mut answers)?;
        Ok(answers.pop())
    }

    /// A host performed a command and gave these answers: what is wrong with that, if anything is.
    pub fn perform(
        &mut self,
        slot: Slot,
        key: Key,
        answers: &[Answer<RegisterReply>],
    ) -> Option<&'static str> {
        self.reached = self.reached.max(slot.number() + 1);
        let Some(obeyed) = self.obeyed.get(slot.number() as usize - 1) else {
            return Some("a slot is performed that nobody said is decided");
        };
        if obeyed.key != key {
            return Some("another command is performed");
        }
        let is_given = match &obeyed.answer {
            None => answers.is_empty(),
            Some(answer) => answers.len() == 1 && answers[0] == *answer,
        };
        if is_given {
            None
        } else {
            Some("another answer is given")
        }
    }

    /// An object that has obeyed what is decided before a slot.
    pub fn object_at(&self, slot: u64) -> Result<Once<Register>, Fail> {
        let mut object = Once::new(self.alloc)?;
        let mut answers = Vec::new(self.alloc);
        let before = self.obeyed.get(..slot as usize - 1);
        for obeyed in before.ok_or("a snapshot is of slots that nobody said are decided")? {
            object.apply(&command(obeyed.key)?, &mut answers)?;
        }
        Ok(object)
    }

    /// The commands that took effect.
    pub fn effective(&self) -> Result<Vec<Key>, Fail> {
        let mut keys = Vec::new(self.alloc);
        for obeyed in &self.obeyed {
            if obeyed.answer.is_some() {
                keys.push(obeyed.key)?;
            }
        }
        Ok(keys)
    }
}

/// Whether two objects are the same.
pub fn is_same(one: &Once<Register>, other: &Once<Register>) -> bool {
    for session in 1..=SESSIONS as u32 {
        if one.latest().get(session) != other.latest().get(session) {
            return false;
        }
    }
    *one.object() == *other.object()
}
