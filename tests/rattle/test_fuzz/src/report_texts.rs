//! Texts of reports, and changes after which they are none, on which the reader of replies is tried.
use crate::head::Head;
use crate::reply_reader::heads_of;
use std::alloc::{AllocError, Global};

// Of a job.
const JOB: &str = "OK 140\r
---
id: 7
tube: a-b
state: ready
pri: 0
age: 12
delay: 0
ttr: 1
time-left: 0
file: 0
reserves: 0
timeouts: 0
releases: 0
buries: 0
kicks: 0
\r
";

// Of a tube.
const TUBE: &str = "OK 265\r
---
name: default
current-jobs-urgent: 0
current-jobs-ready: 0
current-jobs-reserved: 0
current-jobs-delayed: 0
current-jobs-buried: 0
total-jobs: 0
current-using: 0
current-watching: 0
current-waiting: 0
cmd-delete: 0
cmd-pause-tube: 0
pause: 9
pause-time-left: 8
\r
";

// Of the queue.
const QUEUE: &str = "OK 681\r
---
current-jobs-urgent: 1
current-jobs-ready: 1
current-jobs-reserved: 1
current-jobs-delayed: 1
current-jobs-buried: 1
cmd-put: 1
cmd-peek: 1
cmd-peek-ready: 1
cmd-peek-delayed: 1
cmd-peek-buried: 1
cmd-reserve: 1
cmd-reserve-with-timeout: 1
cmd-delete: 1
cmd-release: 1
cmd-use: 1
cmd-watch: 1
cmd-ignore: 1
cmd-bury: 1
cmd-kick: 1
cmd-touch: 1
cmd-stats: 1
cmd-stats-job: 1
cmd-stats-tube: 1
cmd-list-tubes: 1
cmd-list-tube-used: 1
cmd-list-tubes-watched: 1
cmd-pause-tube: 1
job-timeouts: 1
total-jobs: 1
max-job-size: 65535
current-tubes: 1
current-connections: 1
current-producers: 1
current-workers: 1
current-waiting: 1
version: \"beanpax 0.1\"
uptime: 18446744073709551615
\r
";

static REPORTS: [(&str, Head); 3] = [
    (JOB, Head::JobReport),
    (TUBE, Head::TubeReport),
    (QUEUE, Head::QueueReport),
];

// Texts of a report, and what stands in their place after a change. Each is as long as the other.
static CHANGES: [(&str, &str, &str); 18] = [
    // other numbers
    (JOB, "id: 7", "id: +"),
    (JOB, "age: 12", "age: 02"),
    (JOB, "kicks: 0", "kicks: a"),
    (TUBE, "pause: 9", "pause: -"),
    (QUEUE, "18446744073709551615", "18446744073709551616"),
    // other words, and no name of a tube
    (JOB, "ready", "Ready"),
    (JOB, "a-b", "-ab"),
    (TUBE, "default", "def ult"),
    (QUEUE, "beanpax", "beanPax"),
    // other lines, fewer or more
    (JOB, "pri", "Pri"),
    (JOB, "pri: 0\nage: 12", "age: 12\npri: 0"),
    (JOB, "age: 12\nd", "age: 123d"),
    (JOB, "age: 12\n", "age: 1\n\n"),
    (QUEUE, "551615\n", "55161\n\n"),
    (TUBE, "total-jobs: 0", "total-jobs:00"),
    (QUEUE, "cmd-put", "cmd_put"),
    // other lines in front and at the end
    (JOB, "---\n", "--- "),
    (QUEUE, "551615\n", "5516150"),
];

/// The place of a report, or of a change behind them all, that is read otherwise than it should, if there is one.
pub fn wrong_report(alloc: Global) -> Result<Option<usize>, AllocError> {
    for (place, (text, head)) in REPORTS.iter().enumerate() {
        if heads_of(alloc, text.as_bytes())?.as_deref() != Some(&[*head]) {
            return Ok(Some(place));
        }
    }
    for (place, change) in CHANGES.iter().enumerate() {
        if !is_none_after(alloc, *change)? {
            return Ok(Some(place.saturating_add(REPORTS.len())));
        }
    }
    Ok(None)
}

// Whether the change leaves the text as long as it is, and no report.
fn is_none_after(alloc: Global, change: (&str, &str, &str)) -> Result<bool, AllocError> {
    let (text, old, new) = change;
    let Some((before, after)) = text.split_once(old) else {
        return Ok(false);
    };
    let mut changed = Vec::from_slice(alloc, before.as_bytes())?;
    changed.extend_from_slice(new.as_bytes())?;
    changed.extend_from_slice(after.as_bytes())?;
    Ok(changed.len() == text.len() && heads_of(alloc, changed.as_slice())?.is_none())
}
