//! Serves inputs that are drawn from seeds, each whole and cut into pieces, and looks for a difference.
//!
//! Each seed draws one input: those below 10,000 are served in the plain profile, the others in the extended one. The
//! program's words are the first seed and how many there are; without words they are 0 and 12,000. The first input that
//! goes wrong ends it, with a message that names its seed. Where there is one seed alone, its input and what its client
//! is told are shown.
#![tactic(auto)]

mod case;
mod command_kind;
mod damage;
mod draws;
mod head;
mod input;
mod input_kind;
mod one_client;
mod pieces;
mod reply_reader;
mod reply_texts;
mod report_reader;
mod report_texts;
mod serving;

use anyhow::{Context, Result, ensure};
use case::{show_seed, try_seed};
use input_kind::InputKind;
use reply_texts::wrong_text;
use report_texts::wrong_report;
use std::alloc::Global;
use std::env;
use std::rt::Env;

// The seeds that are tried where no word says which.
const SEEDS: Seeds = Seeds {
    first: 0,
    count: 12_000,
};

// Seeds one after the other.
#[derive(Clone, Copy)]
struct Seeds {
    first: u64,
    count: u64,
}

fn main(rt: HostRuntime) -> Result<()> {
    let wrong = wrong_text(rt.alloc())?;
    ensure!(
        wrong.is_none(),
        "the reader of replies is wrong: text {wrong:?}"
    );
    let wrong = wrong_report(rt.alloc())?;
    ensure!(
        wrong.is_none(),
        "the reader of replies is wrong: report {wrong:?}"
    );
    let seeds = seeds_of_words(&rt)?;
    if seeds.count == 1 {
        show_seed(&rt, seeds.first)?;
    }
    let Tally { inputs, known } = try_kinds(&rt, seeds)?;
    println!(rt; "{inputs} inputs, alike whole and in pieces; {known} replies as they had to be")?;
    Ok(())
}

// The seeds that the words of the command line name.
fn seeds_of_words<R: Env + AllocGlobal>(rt: &R) -> Result<Seeds> {
    let mut words = env::args(rt)?.skip(1);
    let Some(first) = words.next() else {
        return Ok(SEEDS);
    };
    let count = words.next().context("how many seeds?")?;
    Ok(Seeds {
        first: first.parse::<u64>().context("the first seed")?,
        count: count.parse::<u64>().context("how many seeds")?,
    })
}

// What was tried.
#[derive(Clone, Copy, Default)]
struct Tally {
    inputs: u64,
    /// How many replies were known before they were told.
    known: u64,
}

impl Tally {
    fn add(&mut self, more: Tally) {
        self.inputs = self.inputs.saturating_add(more.inputs);
        self.known = self.known.saturating_add(more.known);
    }
}

// Tries the inputs kind by kind, and tells how many they are.
fn try_kinds<R: Print + AllocGlobal>(rt: &R, seeds: Seeds) -> Result<Tally> {
    let mut all = Tally::default();
    for kind in InputKind::ALL {
        let tally = try_kind(rt.alloc(), kind, seeds)?;
        println!(rt; "{kind}: {}", tally.inputs)?;
        all.add(tally);
    }
    Ok(all)
}

fn try_kind(alloc: Global, kind: InputKind, seeds: Seeds) -> Result<Tally> {
    let mut tally = Tally::default();
    for seed in seeds.first..seeds.first.saturating_add(seeds.count) {
        if InputKind::of_seed(seed) == kind {
            let known = try_seed(alloc, seed).context(format_args!("seed {seed}, {kind}"))?;
            tally.add(Tally { inputs: 1, known });
        }
    }
    Ok(tally)
}
