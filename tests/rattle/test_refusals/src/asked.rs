//! What the input asks for.
use crate::course::Course;
use crate::subject::Then;

/// Which courses are to be made.
#[derive(Clone, Copy)]
pub enum Asked {
    /// All.
    All,
    /// One, and what comes after its preparations.
    One(Course, Then),
}

impl Asked {
    /// What this input asks for: nothing for all courses, or a name, a space, and how often memory is taken, or `prepare`.
    pub fn from_input(input: &[u8]) -> Option<Asked> {
        let text = std::str::from_utf8(input).ok()?;
        if text.is_empty() {
            return Some(Asked::All);
        }
        let (name, then) = text.split_once(' ')?;
        let course = Course::from_name(name)?;
        Some(Asked::One(course, then_of(then)?))
    }
}

fn then_of(word: &str) -> Option<Then> {
    if word == "prepare" {
        return Some(Then::Stop);
    }
    word.parse().ok().map(Then::Call)
}
