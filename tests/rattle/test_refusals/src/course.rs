//! The courses of calls.

/// A course of calls, each of which may be refused for want of memory.
#[derive(Clone, Copy, Debug, PartialEq, Eq)]
pub enum Course {
    /// A queue obeys commands.
    Queue,
    /// A queue that goes over all jobs obeys them.
    PlainQueue,
    /// A register does.
    Register,
    /// A queue behind its filter does.
    Filter,
    /// A replica performs what is decided.
    Replica,
    /// What a lost leader got accepted is decided, in a world of three nodes.
    World,
    /// Two nodes perform a kick of three buried jobs.
    Kick,
    /// A hall of one node answers a put.
    Hall,
}

/// All of them.
pub const COURSES: [Course; 8] = [
    Course::Queue,
    Course::PlainQueue,
    Course::Register,
    Course::Filter,
    Course::Replica,
    Course::World,
    Course::Kick,
    Course::Hall,
];

impl Course {
    /// The word that names it.
    pub fn name(self) -> &'static str {
        match self {
            Course::Queue => "queue",
            Course::PlainQueue => "plain-queue",
            Course::Register => "register",
            Course::Filter => "filter",
            Course::Replica => "replica",
            Course::World => "world",
            Course::Kick => "kick",
            Course::Hall => "hall",
        }
    }

    /// The one with this name.
    pub fn from_name(name: &str) -> Option<Course> {
        for course in COURSES {
            if course.name() == name {
                return Some(course);
            }
        }
        None
    }
}
