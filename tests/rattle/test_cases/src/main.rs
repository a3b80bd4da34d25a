//! Runs the cases of the files that its words name, and tells what differs.
#![tactic(auto)]

mod case_file;
mod dump;
mod filter;
mod kinds;
mod letter_words;
mod nodes;
mod queue_words;
mod quoted;
mod reading;
mod register_words;
mod replies;
mod requests;
mod script;
mod spoken;
mod values;

use anyhow::{Context, Result, ensure};
use case_file::{Case, cases_of};
use kinds::try_case;
use std::fs::Files;
use std::rt::Env;
use std::{env, fs};

fn main(rt: HostRuntime) -> Result<()> {
    let mut differ = 0usize;
    for name in file_names(&rt)?.iter() {
        differ = differ.saturating_add(run_file(&rt, name.as_str())?);
    }
    ensure!(differ == 0, "cases differ");
    Ok(())
}

// The words of the command line after the program's name.
fn file_names<R: Env + AllocGlobal>(rt: &R) -> Result<Vec<String>> {
    Ok(env::args(rt)?.skip(1).collect(rt.alloc())?)
}

/// Runs the cases of a file, and prints how many of them differ. A file without a case is refused.
fn run_file<R: Files + AllocGlobal + Print>(rt: &R, name: &str) -> Result<usize> {
    let text = fs::read_to_string(rt, name).context(name)?;
    let differ = run_text(rt, name, text.as_str()).context(name)?;
    println!(rt; "{name}: {differ} differ")?;
    Ok(differ)
}

fn run_text<R: AllocGlobal + Print>(rt: &R, name: &str, text: &str) -> Result<usize> {
    let cases = cases_of(rt.alloc(), text)?;
    ensure!(!cases.is_empty(), "no cases");
    run_cases(rt, name, cases.as_slice())
}

// Counts those that differ.
fn run_cases<R: AllocGlobal + Print>(rt: &R, name: &str, cases: &[Case<'_>]) -> Result<usize> {
    let mut differ = 0usize;
    for case in cases {
        differ = differ.saturating_add(usize::from(differs(rt, name, case)?));
    }
    Ok(differ)
}

/// Runs a case, and prints the first thing that goes otherwise than it should.
fn differs<R: AllocGlobal + Print>(rt: &R, name: &str, case: &Case<'_>) -> Result<bool> {
    let mut faults = Vec::new(rt.alloc());
    try_case(rt.alloc(), case, &mut faults).context(case.title)?;
    if let Some(fault) = faults.first() {
        println!(rt; "{name}: {}: {fault}", case.title)?;
    }
    Ok(!faults.is_empty())
}
