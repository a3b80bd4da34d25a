//! What grows, measured: each line that it reads names one thing, and the words behind it say of what size.
//!
//! `slots`, `acceptor`, `hall`, `queue` and `rescue` are what `bench/slot_log_growth` and its like time, each of which
//! gives it one line. The gate gives it all, untimed.
#![tactic(auto)]

mod acceptors;
mod halls;
mod queues;
mod rescues;
mod slot_logs;

use std::process::ExitCode;
use std::str::SplitWhitespace;

fn main(rt: HostRuntime) -> ExitCode {
    match run(&rt) {
        Some(()) => ExitCode::SUCCESS,
        None => ExitCode::FAILURE,
    }
}

// Takes each line.
fn run(rt: &HostRuntime) -> Option<()> {
    for _ in 0..u64::MAX {
        let mut line = String::new(rt.alloc());
        rt.read_line(&mut line).ok()?;
        if line.is_empty() {
            break;
        }
        let mut words = line.split_whitespace();
        let what = words.next()?;
        measure(rt, what, words)?;
    }
    Some(())
}

fn measure(rt: &HostRuntime, what: &str, words: SplitWhitespace<'_>) -> Option<()> {
    match what {
        "slots" => slot_logs::measure(rt.alloc(), &mut rt.stdout()),
        "acceptor" => acceptors::measure(rt.alloc(), &mut rt.stdout()),
        "hall" => halls::measure(rt, words),
        "queue" => queues::measure(rt, words),
        "rescue" => rescues::measure(rt, words),
        _ => None,
    }
}
