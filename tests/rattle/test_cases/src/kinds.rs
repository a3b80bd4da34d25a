//! The kinds of cases. The comments in the files of `data/` say how each is read.
use crate::case_file::Case;
use crate::dump::Parts;
use crate::nodes::Nodes;
use crate::reading::Text;
use crate::replies::Replies;
use crate::requests::Requests;
use crate::script::run_script;
use crate::spoken::Spoken;
use crate::values::node_of;
use anyhow::{Context, Result, bail};
use bean_queue::{PlainQueue, Queue};
use object::{Once, Register};
use std::alloc::Global;

/// Tries a case, and notes what differs.
pub fn try_case(alloc: Global, case: &Case<'_>, faults: &mut Vec<String>) -> Result<()> {
    let lines = case.lines.as_slice();
    match case.kind {
        "register" => try_filter::<Register>(alloc, lines, faults),
        "queue" => try_queues(alloc, lines, faults),
        "requests" => run_script(alloc, &mut Requests, lines, faults),
        "replies" => run_script(alloc, &mut Replies, lines, faults),
        "dump" => try_dump(alloc, lines, faults),
        "reading" => run_script(alloc, &mut Text::new(alloc), lines, faults),
        "nodes of a register" => try_nodes::<Register>(alloc, lines, faults),
        "nodes of a queue" => try_queue_nodes(alloc, lines, faults),
        _ => bail!("no such kind"),
    }
}

// The script of an object behind its once-only filter.
fn try_filter<O: Spoken>(alloc: Global, lines: &[&str], faults: &mut Vec<String>) -> Result<()> {
    let mut filter: Once<O> = Once::new(alloc)?;
    run_script(alloc, &mut filter, lines, faults)
}

// The plain queue and the indexed one do the same.
fn try_queues(alloc: Global, lines: &[&str], faults: &mut Vec<String>) -> Result<()> {
    try_filter::<PlainQueue>(alloc, lines, faults)?;
    try_filter::<Queue>(alloc, lines, faults)
}

fn try_dump(alloc: Global, lines: &[&str], faults: &mut Vec<String>) -> Result<()> {
    let mut parts = Parts::new(alloc);
    run_script(alloc, &mut parts, lines, faults)
}

// The script of a world, whose first line says how many nodes there are.
fn try_nodes<O: Spoken>(alloc: Global, lines: &[&str], faults: &mut Vec<String>) -> Result<()> {
    let (first, steps) = lines.split_first().context("no nodes")?;
    let count = first.strip_prefix("nodes ").context("no nodes")?;
    let mut nodes: Nodes<O> = Nodes::new(alloc, node_of(count)?)?;
    run_script(alloc, &mut nodes, steps, faults)
}

fn try_queue_nodes(alloc: Global, lines: &[&str], faults: &mut Vec<String>) -> Result<()> {
    try_nodes::<PlainQueue>(alloc, lines, faults)?;
    try_nodes::<Queue>(alloc, lines, faults)
}
