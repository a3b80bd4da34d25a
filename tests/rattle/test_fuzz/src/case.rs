//! One seed's input, and what has to be so of it.
use crate::draws::Draws;
use crate::input::Input;
use crate::input_kind::InputKind;
use crate::reply_reader::heads_of;
use crate::serving::{Served, serve_in_pieces, serve_whole};
use anyhow::{Context, Result, bail, ensure};
use bean_codec::Profile;
use session::SessionFault;
use std::alloc::Global;

// From this seed on the extended profile is spoken.
const FIRST_EXTENDED: u64 = 10_000;

fn profile_of(seed: u64) -> Profile {
    if seed < FIRST_EXTENDED {
        Profile::Plain
    } else {
        Profile::Extended
    }
}

// A seed's input, and what came of it.
#[derive(Drop)]
struct Case {
    input: Input,
    whole: Served,
    in_pieces: Served,
}

impl Case {
    fn of_seed(alloc: Global, seed: u64) -> Result<Case> {
        let mut draws = Draws::new(seed);
        let profile = profile_of(seed);
        let input = Input::draw(alloc, profile, InputKind::of_seed(seed), &mut draws)?;
        let whole = serve_whole(alloc, profile, input.bytes.as_slice())?;
        let in_pieces = serve_in_pieces(alloc, profile, input.bytes.as_slice(), draws)?;
        Ok(Case {
            input,
            whole,
            in_pieces,
        })
    }
}

/// Serves a seed's input whole and in pieces, and looks at what its client is told. It says how many replies were known
/// beforehand.
pub fn try_seed(alloc: Global, seed: u64) -> Result<u64> {
    let case = Case::of_seed(alloc, seed)?;
    ensure!(
        case.whole == case.in_pieces,
        "in pieces it is served otherwise than whole"
    );
    ensure_end(&case.input, &case.whole)?;
    ensure_replies(alloc, &case.input, case.whole.output.as_slice())?;
    Ok(case.input.known() as u64)
}

// Nothing broke, and where it is known how the session ends it ends so.
fn ensure_end(input: &Input, served: &Served) -> Result<()> {
    ensure!(
        served.times_closed == 1,
        "the service was closed {} times",
        served.times_closed
    );
    match served.end {
        Ok(end) => ensure!(input.may_end(end), "it ends otherwise: {end:?}"),
        // the client waits too long
        Err(SessionFault::ServiceStopped) => ensure!(input.known() == 0, "the service stopped"),
        Err(fault) => bail!("{fault}"),
    }
    Ok(())
}

// All that was told are replies, and where they are known they are these.
fn ensure_replies(alloc: Global, input: &Input, output: &[u8]) -> Result<()> {
    let heads = heads_of(alloc, output)?.context("what is told isn't made of replies")?;
    ensure!(input.may_get(heads.as_slice()), "other replies: {heads:?}");
    Ok(())
}

/// Shows a seed's input, and what its client is told whole and in pieces.
pub fn show_seed<R: Print + AllocGlobal>(rt: &R, seed: u64) -> Result<()> {
    let case = Case::of_seed(rt.alloc(), seed)?;
    println!(rt; "input \"{}\"", case.input.bytes.escape_ascii())?;
    show(rt, "whole", &case.whole)?;
    show(rt, "in pieces", &case.in_pieces)
}

fn show<R: Print>(rt: &R, title: &str, served: &Served) -> Result<()> {
    println!(rt;
        "{title} \"{}\", {:?}",
        served.output.escape_ascii(),
        served.end
    )?;
    Ok(())
}
