//! Three hosts at a register, with no disk and no network between them: how much processor time a command takes at the
//! leader's host and at another one.
//!
//! Each line that it reads is `commands N`, `sessions N`, or one of these with `timed` before it. `bench/host_turns`
//! gives it such lines. The times are in microseconds, and 0 where nothing is timed.
#![tactic(auto)]

mod hosts;
mod measures;
mod place;

use std::process::ExitCode;

fn main(rt: HostRuntime) -> ExitCode {
    match run(&rt) {
        Some(()) => ExitCode::SUCCESS,
        None => ExitCode::FAILURE,
    }
}

// Takes each line.
fn run(rt: &HostRuntime) -> Option<()> {
    for _ in 0..u64::MAX {
        let mut line = String::new(rt.alloc());
        rt.read_line(&mut line).ok()?;
        if line.is_empty() {
            break;
        }
        let mut words = line.split_whitespace();
        let first = words.next()?;
        if first == "timed" {
            measures::measure(rt, true, words.next()?, words.next()?)?;
        } else {
            measures::measure(rt, false, first, words.next()?)?;
        }
    }
    Some(())
}
