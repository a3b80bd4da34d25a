//! How a run went.
use std::fmt;
use std::fmt::Display;

/// How a run went.
#[derive(Clone, Copy, Debug, PartialEq, Eq)]
pub enum Outcome {
    /// The program wasn't called.
    Prepared,
    /// The client was answered, and these of its requests were refused.
    Answered(Requests),
    /// The client was told so many bytes, and then the program was out of memory.
    OutOfMemory(usize),
    /// Neither.
    Wrong,
}

/// Some of the client's requests.
#[derive(Clone, Copy, Debug, PartialEq, Eq)]
pub struct Requests {
    pub put: bool,
    pub reserve: bool,
    pub delete: bool,
}

impl Requests {
    fn words(self) -> &'static str {
        match (self.put, self.reserve, self.delete) {
            (false, false, false) => "none",
            (true, false, false) => "put",
            (false, true, false) => "reserve",
            (false, false, true) => "delete",
            (true, true, false) => "put and reserve",
            (true, false, true) => "put and delete",
            (false, true, true) => "reserve and delete",
            (true, true, true) => "all",
        }
    }
}

impl Display for Outcome {
    fn fmt<W: fmt::Write>(&self, f: &mut fmt::Formatter<W>) -> fmt::Result {
        match self {
            Outcome::Prepared => f.write_str("prepared"),
            Outcome::Answered(refused) => write!(f, "answered, {} refused", refused.words()),
            Outcome::OutOfMemory(told) => write!(f, "out of memory after {told} bytes"),
            Outcome::Wrong => f.write_str("wrong"),
        }
    }
}
