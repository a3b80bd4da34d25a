//! Runs with memory that may be refused: the program over simulated nodes, whose client puts a job,
//! reserves and deletes it; and a server of one node, whose client leaves with a job.
//!
//! With a number as input memory is taken so many times before the program is called, and with the
//! word `prepare` it isn't called. With `leave` and a number it is taken before that client leaves;
//! with `leave prepare`, `leave close` and `leave end` it is taken then, when its end was handed
//! in, or in the end, until it is refused. By these `tools/try-refusals` refuses the allocations,
//! one after the other. Without input both runs are made.
#![tactic(auto)]

mod leave;
mod leaving;
mod outcome;
mod runs;

use crate::leave::{Left, leave_with_a_job};
use crate::leaving::Taking;
use crate::outcome::Outcome;
use crate::runs::Then;
use beanpax::{Host, no_sockets};
use std::io::Read;
use std::process::ExitCode;

fn main(rt: HostRuntime) -> ExitCode {
    let _sockets = no_sockets();
    let mut input = [0; 64];
    let count = rt.stdin().read(&mut input).unwrap_or(0);
    match run_all(&rt, input.get(..count).unwrap_or(&[])) {
        Some(()) => ExitCode::SUCCESS,
        None => ExitCode::FAILURE,
    }
}

// Makes the run that this input asks for, or both, and tells how that went.
fn run_all<H: Host + Print>(rt: &H, input: &[u8]) -> Option<()> {
    if input.is_empty() {
        run(rt, Then::Call(0))?;
        return leave_course(rt, Taking::Times(0));
    }
    let text = std::str::from_utf8(input).ok()?;
    match text.split_once(' ') {
        Some(("leave", "prepare")) => leave_course(rt, Taking::BeforeItLeaves),
        Some(("leave", "close")) => leave_course(rt, Taking::WhenItHasLeft),
        Some(("leave", "end")) => leave_course(rt, Taking::InTheEnd),
        Some(("leave", count)) => leave_course(rt, Taking::Times(count.parse().ok()?)),
        _ => run(rt, Then::from_input(input)?),
    }
}

// Runs the program, and tells how that went. There is nothing to tell where it could not be
// prepared.
fn run<H: Host + Print>(rt: &H, then: Then) -> Option<()> {
    let outcome = runs::first_client(rt, then)?;
    if outcome != Outcome::Prepared {
        println!(rt; "run: {outcome}").ok()?;
    }
    (outcome != Outcome::Wrong).then_some(())
}

// Has a client leave, and tells how that went.
fn leave_course<H: Host + Print>(rt: &H, taking: Taking) -> Option<()> {
    let left = leave_with_a_job(rt, taking)?;
    println!(rt; "leave: {left}").ok()?;
    (left != Left::Wrong).then_some(())
}
