//! The sessions at a hall, and whether what they are told agrees.
use crate::soak::cluster::Cluster;
use crate::soak::draws::Draws;
use crate::soak::jobs::Jobs;
use crate::soak::session::{Ask, Session};
use std::alloc::Global;
use std::test::Fail;

/// So many sessions are there.
pub const SESSIONS: usize = 200;

/// So many times in a second sessions may ask.
const TIMES: u32 = 4;

/// One session of so many that wait for nothing asks.
const TO_ASK: u32 = 16;

/// One of so many leaves.
const TO_LEAVE: u32 = 512;

/// So many seconds pass at most until a session is answered.
const MOST_SECONDS: u32 = 20;

/// So many seconds pass in which no session asks.
const SECONDS_OF_CALM: u32 = 10;

/// The sessions, with the jobs as they were told of them.
#[derive(Drop)]
pub struct Crowd {
    pub cluster: Cluster,
    pub jobs: Jobs,
    sessions: Vec<Session>,
    draws: Draws,
    /// The number of the session that came last.
    last: u32,
    alloc: Global,
}

impl Crowd {
    /// All sessions are there, and have asked for nothing.
    pub fn new(alloc: Global, nodes: u8, seed: u64) -> Result<Crowd, Fail> {
        let mut crowd = Crowd {
            cluster: Cluster::new(alloc, nodes, seed)?,
            jobs: Jobs::new(alloc),
            sessions: Vec::new(alloc),
            draws: Draws::new(seed),
            last: 0,
            alloc,
        };
        for _ in 0..SESSIONS {
            let session = crowd.open_session()?;
            crowd.sessions.push(session)?;
        }
        Ok(crowd)
    }

    fn open_session(&mut self) -> Result<Session, Fail> {
        self.last = self.cluster.open_session()?;
        Ok(Session::new(self.last))
    }

    /// How many sessions left.
    pub fn left(&self) -> u32 {
        self.last.saturating_sub(SESSIONS as u32)
    }

    /// Whether the hall keeps something of as many sessions as are there.
    pub fn is_kept_alone(&self) -> bool {
        self.cluster.client_count(self.last) == self.sessions.len()
    }

    /// A second in which sessions ask and leave.
    pub fn work(&mut self) -> Result<(), Fail> {
        self.pass_second()?;
        for _ in 0..TIMES {
            self.ask_and_leave()?;
            self.cluster.settle()?;
            self.hear()?;
        }
        Ok(())
    }

    /// A second passes, and what sessions wait for is handed in again.
    pub fn pass_second(&mut self) -> Result<(), Fail> {
        self.cluster.pass_second()?;
        for session in self.sessions.iter() {
            if session.asked().is_some() {
                self.cluster.resubmit(session.number())?;
            }
        }
        self.cluster.settle()?;
        self.hear()
    }

    // Those that are drawn ask or leave.
    fn ask_and_leave(&mut self) -> Result<(), Fail> {
        for place in 0..self.sessions.len() {
            if self.draws.is_one_of(TO_LEAVE) {
                self.replace(place)?;
            } else if self.draws.is_one_of(TO_ASK) {
                self.draw_ask(place)?;
            }
        }
        Ok(())
    }

    // A session asks for what is drawn, unless it waits.
    fn draw_ask(&mut self, place: usize) -> Result<(), Fail> {
        let Some(session) = self.sessions.get(place) else {
            return Ok(());
        };
        if session.asked().is_some() {
            return Ok(());
        }
        let ask = session.draw_ask(&mut self.draws);
        self.ask(place, ask)
    }

    fn ask(&mut self, place: usize, ask: Ask) -> Result<(), Fail> {
        let Some(session) = self.sessions.get_mut(place) else {
            return Ok(());
        };
        let op = session.begin(self.alloc, ask, &mut self.draws)?;
        self.cluster.submit(session.number(), op)
    }

    // A session leaves, if it may, and a new one comes.
    fn replace(&mut self, place: usize) -> Result<(), Fail> {
        let Some(session) = self.sessions.get(place) else {
            return Ok(());
        };
        if !session.may_leave() {
            return Ok(());
        }
        session.leave(&mut self.jobs)?;
        self.cluster.close(session.number())?;
        let newcomer = self.open_session()?;
        if let Some(session) = self.sessions.get_mut(place) {
            *session = newcomer;
        }
        Ok(())
    }

    // Each session hears what it was told: first what makes jobs free, which others may have got since.
    fn hear(&mut self) -> Result<(), Fail> {
        self.hear_those(true)?;
        self.hear_those(false)
    }

    fn hear_those(&mut self, frees: bool) -> Result<(), Fail> {
        for session in self.sessions.iter_mut() {
            let Some(ask) = session.asked() else {
                continue;
            };
            if ask.frees() != frees {
                continue;
            }
            if let Some(reply) = self.cluster.reply(session.number()) {
                session.hear(reply, &mut self.jobs)?;
            }
        }
        Ok(())
    }

    /// Seconds pass, after which no session waits but for a job. Then all leave, and seconds pass again: by then no job
    /// is delayed, and none has a holder.
    pub fn end(&mut self) -> Result<(), Fail> {
        self.pass_seconds()?;
        for session in self.sessions.iter() {
            if !session.may_leave() {
                return Err("a session has no answer".into());
            }
            session.leave(&mut self.jobs)?;
            self.cluster.close(session.number())?;
        }
        self.sessions.clear();
        self.pass_seconds()
    }

    fn pass_seconds(&mut self) -> Result<(), Fail> {
        for _ in 0..SECONDS_OF_CALM {
            self.pass_second()?;
        }
        Ok(())
    }

    /// One more session comes, kicks all buried jobs, and reserves until it gets none. This is its number.
    pub fn gather_jobs(&mut self) -> Result<u32, Fail> {
        let session = self.open_session()?;
        self.sessions.push(session)?;
        self.ask_alone(Ask::Kick(u32::MAX))?;
        for _ in 0..=self.jobs.len() {
            self.ask_alone(Ask::Reserve { seconds: Some(0) })?;
            if !self.sessions.iter().any(|session| session.has_job()) {
                return Ok(self.last);
            }
        }
        Err("too many jobs".into())
    }

    // The only session asks for this, and seconds pass until it is answered.
    fn ask_alone(&mut self, ask: Ask) -> Result<(), Fail> {
        self.ask(0, ask)?;
        self.cluster.settle()?;
        self.hear()?;
        for _ in 0..MOST_SECONDS {
            if !self.has_unanswered() {
                return Ok(());
            }
            self.pass_second()?;
        }
        Err("a session has no answer".into())
    }

    fn has_unanswered(&self) -> bool {
        self.sessions
            .iter()
            .any(|session| session.asked().is_some())
    }
}
