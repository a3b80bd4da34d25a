//! Reading requests. A step is the profile, what the reader waits for, and the bytes that came.
use crate::dump::{Parts, dump_of};
use crate::quoted::bytes_of;
use crate::script::Stage;
use crate::values::large;
use anyhow::{Context, Result, bail};
use ballot::Members;
use bean_codec::{Fault, Profile, Read, Request, Want, read_request_in, write_fault};
use bean_words::Op;
use object::{Act, Command, Key, Submission};
use std::alloc::Global;

/// A reader of requests.
#[derive(Drop)]
pub struct Requests;

impl Stage for Requests {
    fn step(&mut self, alloc: Global, step: &str, told: &mut String) -> Result<()> {
        let (profile, step) = profile_of(step);
        let (want, text) = want_of(step)?;
        let bytes = bytes_of(alloc, text)?;
        let read = read_request_in(profile, alloc, want, bytes.as_slice())?;
        tell_read(alloc, read, told)
    }
}

// The profile, and the rest of the step: the plain one, where it isn't said to be the extended one.
fn profile_of(step: &str) -> (Profile, &str) {
    match step.strip_prefix("extended ") {
        Some(rest) => (Profile::Extended, rest),
        None => (Profile::Plain, step),
    }
}

// What the reader waits for, and the bytes as they are quoted.
fn want_of(step: &str) -> Result<(Want, &str)> {
    let (word, text) = step.split_once(' ').context("no bytes")?;
    match word {
        "line" => Ok((Want::Line, text)),
        "rest" => Ok((Want::Rest, text)),
        "big" => big_want_of(text),
        _ => bail!("no such want"),
    }
}

// A number of bytes that end a body, and the bytes as they are quoted.
fn big_want_of(text: &str) -> Result<(Want, &str)> {
    let (count, text) = text.split_once(' ').context("no bytes")?;
    Ok((Want::Big(large(count)?), text))
}

fn tell_read(alloc: Global, read: Read, told: &mut String) -> Result<()> {
    match read {
        Read::More => Ok(told.push_str("  more\n")?),
        Read::Drop { used, want } => tell_drop(used, want, told),
        Read::Request { request, used } => {
            tell_used(used, request_words(alloc, request)?.as_str(), told)
        }
        Read::Bad { fault, used } => tell_used(used, fault_words(alloc, fault)?.as_str(), told),
    }
}

fn tell_used(used: usize, words: &str, told: &mut String) -> Result<()> {
    Ok(write!(told, "  {used} bytes: {words}\n")?)
}

fn tell_drop(used: usize, want: Want, told: &mut String) -> Result<()> {
    write!(told, "  drop {used}, and wait for ")?;
    tell_want(want, told)
}

fn tell_want(want: Want, told: &mut String) -> Result<()> {
    match want {
        Want::Line => Ok(told.push_str("line\n")?),
        Want::Rest => Ok(told.push_str("rest\n")?),
        Want::Big(count) => Ok(write!(told, "big {count}\n")?),
    }
}

fn fault_words(alloc: Global, fault: Fault) -> Result<String> {
    let mut bytes = Vec::new(alloc);
    write_fault(fault, &mut bytes)?;
    Ok(format!(in alloc; "\"{}\"", bytes.escape_ascii())?)
}

// The line of a dump for the request, as the first of session 1.
fn request_words(alloc: Global, request: Request) -> Result<String> {
    match request {
        Request::Do(op) => op_line(alloc, op),
        Request::Quit => Ok(String::from_str(alloc, "quit")?),
    }
}

fn op_line(alloc: Global, op: Op) -> Result<String> {
    let key = Key {
        session: 1,
        number: 1,
    };
    let command = Command::new(key, Act::Do(op)).context("no command")?;
    let mut parts = Parts::new(alloc);
    parts.submitted.push(Submission { command, after: 0 })?;
    line_of(alloc, parts)
}

/// The line of a dump that has one line between its head and its end.
pub fn line_of(alloc: Global, parts: Parts) -> Result<String> {
    let text = dump_of(alloc, Members::new(1), parts)?.context("no chronicle")?;
    let line = text.lines().nth(2).context("no line")?;
    Ok(String::from_str(alloc, line)?)
}
