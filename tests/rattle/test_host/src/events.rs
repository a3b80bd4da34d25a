//! The events of a course, of which some are more frequent than others.
use crate::draws::Draws;

/// What is drawn next.
#[derive(Clone, Copy, Debug)]
pub enum Event {
    Ask,
    Wake,
    Nudge,
    Propose,
    Perform,
    Deliver,
    Write,
    Sync,
    TakeTurns,
    Forget,
    Rewrite,
    HandOn,
    Disturb,
    LeadAstray,
    Mishap,
}

/// The events, and how frequent they are.
const EVENTS: [(Event, u32); 15] = [
    (Event::Ask, 12),
    (Event::Wake, 2),
    (Event::Nudge, 2),
    (Event::Propose, 4),
    (Event::Perform, 6),
    (Event::Deliver, 48),
    (Event::Write, 8),
    (Event::Sync, 10),
    (Event::TakeTurns, 10),
    (Event::Forget, 3),
    (Event::Rewrite, 2),
    (Event::HandOn, 2),
    (Event::Disturb, 8),
    (Event::LeadAstray, 1),
    (Event::Mishap, 1),
];

/// How frequent each event is in one course.
#[derive(Clone, Copy, Debug)]
pub struct Frequencies {
    of: [u32; 15],
    sum: u32,
}

impl Frequencies {
    /// Each event is as frequent as it is mostly, or two or four times so.
    pub fn draw(draws: &mut Draws) -> Frequencies {
        let mut of = [0; 15];
        let mut sum = 0;
        for place in 0..EVENTS.len() {
            of[place] = EVENTS[place].1 << draws.below(3);
            sum += of[place];
        }
        Frequencies { of, sum }
    }

    /// The next event.
    pub fn next(&self, draws: &mut Draws) -> Event {
        let mut left = draws.below(self.sum);
        for place in 0..EVENTS.len() {
            if left < self.of[place] {
                return EVENTS[place].0;
            }
            left -= self.of[place];
        }
        Event::Deliver
    }
}
