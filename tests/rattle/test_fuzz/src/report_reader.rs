//! Reading reports, by the protocol's text alone: it shares nothing with what writes them.
use crate::head::Head;
use crate::reply_reader::{is_name, number};

// What a line of a report tells behind its name.
#[derive(Clone, Copy)]
enum Told {
    Number,
    Tube,
    State,
    /// Of the program.
    Version,
}

// A line of a report: its name, and what it tells.
type Line = (&'static str, Told);

static JOB_LINES: [Line; 14] = [
    ("id", Told::Number),
    ("tube", Told::Tube),
    ("state", Told::State),
    ("pri", Told::Number),
    ("age", Told::Number),
    ("delay", Told::Number),
    ("ttr", Told::Number),
    ("time-left", Told::Number),
    ("file", Told::Number),
    ("reserves", Told::Number),
    ("timeouts", Told::Number),
    ("releases", Told::Number),
    ("buries", Told::Number),
    ("kicks", Told::Number),
];

static TUBE_LINES: [Line; 14] = [
    ("name", Told::Tube),
    ("current-jobs-urgent", Told::Number),
    ("current-jobs-ready", Told::Number),
    ("current-jobs-reserved", Told::Number),
    ("current-jobs-delayed", Told::Number),
    ("current-jobs-buried", Told::Number),
    ("total-jobs", Told::Number),
    ("current-using", Told::Number),
    ("current-watching", Told::Number),
    ("current-waiting", Told::Number),
    ("cmd-delete", Told::Number),
    ("cmd-pause-tube", Told::Number),
    ("pause", Told::Number),
    ("pause-time-left", Told::Number),
];

// The queue's lines: those of beanstalkd but for what tells of a process or a machine.
static QUEUE_LINES: [Line; 37] = [
    ("current-jobs-urgent", Told::Number),
    ("current-jobs-ready", Told::Number),
    ("current-jobs-reserved", Told::Number),
    ("current-jobs-delayed", Told::Number),
    ("current-jobs-buried", Told::Number),
    ("cmd-put", Told::Number),
    ("cmd-peek", Told::Number),
    ("cmd-peek-ready", Told::Number),
    ("cmd-peek-delayed", Told::Number),
    ("cmd-peek-buried", Told::Number),
    ("cmd-reserve", Told::Number),
    ("cmd-reserve-with-timeout", Told::Number),
    ("cmd-delete", Told::Number),
    ("cmd-release", Told::Number),
    ("cmd-use", Told::Number),
    ("cmd-watch", Told::Number),
    ("cmd-ignore", Told::Number),
    ("cmd-bury", Told::Number),
    ("cmd-kick", Told::Number),
    ("cmd-touch", Told::Number),
    ("cmd-stats", Told::Number),
    ("cmd-stats-job", Told::Number),
    ("cmd-stats-tube", Told::Number),
    ("cmd-list-tubes", Told::Number),
    ("cmd-list-tube-used", Told::Number),
    ("cmd-list-tubes-watched", Told::Number),
    ("cmd-pause-tube", Told::Number),
    ("job-timeouts", Told::Number),
    ("total-jobs", Told::Number),
    ("max-job-size", Told::Number),
    ("current-tubes", Told::Number),
    ("current-connections", Told::Number),
    ("current-producers", Told::Number),
    ("current-workers", Told::Number),
    ("current-waiting", Told::Number),
    ("version", Told::Version),
    ("uptime", Told::Number),
];

/// Which report has these lines, if one has.
pub fn report_of(lines: &str) -> Option<Head> {
    if has_lines(lines, &JOB_LINES) {
        return Some(Head::JobReport);
    }
    if has_lines(lines, &TUBE_LINES) {
        return Some(Head::TubeReport);
    }
    has_lines(lines, &QUEUE_LINES).then_some(Head::QueueReport)
}

// Whether the text is these lines, one after the other.
fn has_lines(text: &str, wanted: &[Line]) -> bool {
    let mut lines = text.split_terminator('\n');
    for line in wanted {
        match lines.next() {
            Some(text) if is_line(text, *line) => {}
            _ => return false,
        }
    }
    lines.next().is_none()
}

fn is_line(text: &str, line: Line) -> bool {
    let (name, told) = line;
    match text.split_once(": ") {
        Some((word, value)) => word == name && told.may_be(value),
        None => false,
    }
}

impl Told {
    fn may_be(self, value: &str) -> bool {
        match self {
            Told::Number => number(value).is_some(),
            Told::Tube => is_name(value),
            Told::State => matches!(value, "ready" | "delayed" | "reserved" | "buried"),
            Told::Version => value == "\"beanpax 0.1\"",
        }
    }
}
