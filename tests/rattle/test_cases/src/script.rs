//! Scripts: steps, and what comes of them.
use anyhow::{Context, Result};
use std::alloc::{AllocError, Global};

/// What takes the steps of a script.
pub trait Stage {
    /// Takes a step, and tells what came of it: each thing one line, which begins with two spaces.
    fn step(&mut self, alloc: Global, step: &str, told: &mut String) -> Result<()>;
}

/// Takes the steps of a script. A line that begins with spaces is what is to come of the step above it.
pub fn run_script<S: Stage>(
    alloc: Global,
    stage: &mut S,
    lines: &[&str],
    faults: &mut Vec<String>,
) -> Result<()> {
    let mut told = String::new(alloc);
    for line in lines {
        if !line.starts_with("  ") {
            take(alloc, stage, *line, &mut told)?;
        }
    }
    compare(alloc, lines, told.as_str(), faults)
}

// Tells a step and what comes of it.
fn take<S: Stage>(alloc: Global, stage: &mut S, step: &str, told: &mut String) -> Result<()> {
    tell_line("", step, told)?;
    stage.step(alloc, step, told).context(step)
}

/// Tells a line, which begins so.
pub fn tell_line(begin: &str, line: &str, told: &mut String) -> Result<(), AllocError> {
    write!(told, "{begin}{line}\n")
}

// Notes all that is told, where it isn't these lines.
fn compare(alloc: Global, lines: &[&str], told: &str, faults: &mut Vec<String>) -> Result<()> {
    let wanted = text_of(alloc, lines)?;
    if wanted.as_str() != told {
        faults.push(format!(in alloc; "told otherwise:\n{told}")?)?;
    }
    Ok(())
}

fn text_of(alloc: Global, lines: &[&str]) -> Result<String, AllocError> {
    let mut text = String::new(alloc);
    for line in lines {
        tell_line("", *line, &mut text)?;
    }
    Ok(text)
}
