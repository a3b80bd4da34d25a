//! What kinds of replies there are, as the protocol's text tells them.

/// What a reply begins with. `OUT_OF_MEMORY` and `INTERNAL_ERROR` aren't among them: here memory is ample, and no queue
/// comes near its last id.
#[derive(Clone, Copy, Debug, PartialEq, Eq)]
pub enum Head {
    Inserted,
    Using,
    Watching,
    NotIgnored,
    Reserved,
    DeadlineSoon,
    TimedOut,
    Deleted,
    NotFound,
    Released,
    Buried,
    Touched,
    /// `KICKED` with a number.
    KickedCount,
    Kicked,
    Found,
    /// `OK` with a list of tubes.
    Tubes,
    /// `OK` with a report of a job.
    JobReport,
    /// `OK` with a report of a tube.
    TubeReport,
    /// `OK` with a report of the queue.
    QueueReport,
    Paused,
    BadFormat,
    UnknownCommand,
    ExpectedCrlf,
    JobTooBig,
}
