//! Why nothing was measured.

use std::fmt::{self, Display, Formatter};
use std::io;

pub enum Fault {
    /// The program was called with other words.
    Words,
    /// The server can't be reached.
    NoServer(io::Error),
    /// A connection failed, or waiting for one.
    Io(io::Error),
    /// The server closed a connection.
    Closed,
    /// The server answered a command so, which isn't right.
    Reply(String),
    /// A thread ended before its clients had handled their jobs.
    Panic,
}

impl Fault {
    /// The words that the program wants.
    pub const WORDS: &'static str = "PORT CONNECTIONS JOBS SIZE THREADS";
}

impl Display for Fault {
    fn fmt(&self, f: &mut Formatter<'_>) -> fmt::Result {
        match self {
            Fault::Words => write!(f, "{} are wanted", Fault::WORDS),
            Fault::NoServer(error) => write!(f, "no server: {error}"),
            Fault::Io(error) => write!(f, "a connection failed: {error}"),
            Fault::Closed => write!(f, "the server closed a connection"),
            Fault::Reply(reply) => write!(f, "another reply: {reply:?}"),
            Fault::Panic => write!(f, "a thread panicked"),
        }
    }
}

impl From<io::Error> for Fault {
    fn from(error: io::Error) -> Fault {
        Fault::Io(error)
    }
}
