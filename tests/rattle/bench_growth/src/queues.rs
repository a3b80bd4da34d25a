//! A queue with many jobs, and what its commands cost, for `bench/queue_growth`.
//!
//! Its words are: `timed`, where it is to tell the processor time, or another word; how many jobs there are; and
//! which measures it takes, as `timed 10000 serve beside paused release touch list`. Each measure has a queue of its own.
//! `watch`, `names` and `deadlines`, which `bench/queue_growth` doesn't take, are as large however many jobs there are. It
//! writes a line after each part.

mod clients;
mod marks;
mod measures;

use clients::Clients;
use marks::Marks;
use measures::{
    deadlines, list, names, release, serve, serve_beside, serve_watching, touch, watch,
};
use std::str::SplitWhitespace;

/// Takes each measure, of a new queue.
pub fn measure(rt: &HostRuntime, mut words: SplitWhitespace<'_>) -> Option<()> {
    let marks = Marks {
        is_timed: words.next()? == "timed",
    };
    let jobs: u32 = words.next()?.parse().ok()?;
    for word in words {
        let mut clients = Clients::new(rt.alloc())?;
        take(rt, marks, &mut clients, word, jobs)?;
    }
    Some(())
}

fn take(
    rt: &HostRuntime,
    marks: Marks,
    clients: &mut Clients,
    word: &str,
    jobs: u32,
) -> Option<()> {
    match word {
        "serve" => serve(rt, marks, clients, jobs, 0),
        "beside" => serve_beside(rt, marks, clients, jobs, false),
        "paused" => serve_beside(rt, marks, clients, jobs, true),
        "release" => release(rt, marks, clients, jobs),
        "touch" => touch(rt, marks, clients, jobs),
        "watch" => watch(rt, marks, clients),
        "watching_one" => serve_watching(rt, marks, clients, jobs, 0),
        "watching_many" => serve_watching(rt, marks, clients, jobs, 999),
        "list" => list(rt, marks, clients, jobs),
        "names" => names(rt, marks, clients),
        "deadlines" => deadlines(rt, marks, clients),
        _ => None,
    }
}
