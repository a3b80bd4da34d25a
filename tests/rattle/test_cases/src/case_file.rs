//! A file of cases.
use anyhow::{Context, Result, ensure};
use std::alloc::Global;

/// A case: of what kind it is, what it shows, and its lines.
#[derive(Drop)]
pub struct Case<'a> {
    pub kind: &'a str,
    pub title: &'a str,
    pub lines: Vec<&'a str>,
}

/// The cases of a text. A case begins with a line that has its kind in brackets and then its title. Empty lines and
/// lines that begin with `#` are of no case.
pub fn cases_of<'a>(alloc: Global, text: &'a str) -> Result<Vec<Case<'a>>> {
    let mut cases: Vec<Case<'a>> = Vec::new(alloc);
    for line in text.lines() {
        if !line.is_empty() && !line.starts_with('#') {
            add_line(alloc, &mut cases, line)?;
        }
    }
    Ok(cases)
}

// Begins a case, or goes on with the last one.
fn add_line<'a>(alloc: Global, cases: &mut Vec<Case<'a>>, line: &'a str) -> Result<()> {
    match title_line(line) {
        Some((kind, title)) => Ok(cases.push(new_case(alloc, kind, title))?),
        None => {
            ensure!(!line.starts_with('['), "a title without its kind");
            let case = cases.last_mut().context("a line before the first case")?;
            Ok(case.lines.push(line)?)
        }
    }
}

fn new_case<'a>(alloc: Global, kind: &'a str, title: &'a str) -> Case<'a> {
    Case {
        kind,
        title,
        lines: Vec::new(alloc),
    }
}

// The kind and the title, where the line has them.
fn title_line(line: &str) -> Option<(&str, &str)> {
    line.strip_prefix('[')?.split_once("] ")
}
