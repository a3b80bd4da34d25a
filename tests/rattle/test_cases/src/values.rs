//! Numbers, names and bodies in words.
use crate::quoted::bytes_of;
use anyhow::{Context, Result};
use bean_words::{Body, Name};
use std::alloc::Global;

pub fn small(word: &str) -> Result<u32> {
    word.parse::<u32>().context("no number")
}

pub fn large(word: &str) -> Result<u64> {
    word.parse::<u64>().context("no number")
}

pub fn count_of(word: &str) -> Result<usize> {
    word.parse::<usize>().context("no number")
}

pub fn node_of(word: &str) -> Result<u8> {
    word.parse::<u8>().context("no node")
}

pub fn name_of(alloc: Global, word: &str) -> Result<Name> {
    Name::new(alloc, word.as_bytes())?.context("no name")
}

/// The body of these bytes.
pub fn body_of(alloc: Global, bytes: &[u8]) -> Result<Body> {
    Ok(Body::new(alloc, bytes)?)
}

/// The body that is quoted.
pub fn quoted_body_of(alloc: Global, quoted: &str) -> Result<Body> {
    let bytes = bytes_of(alloc, quoted)?;
    body_of(alloc, bytes.as_slice())
}
