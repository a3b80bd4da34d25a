//! Bytes that are quoted in a line.
use anyhow::{Context, Result, bail, ensure};
use std::alloc::{AllocError, Global};

/// The bytes of a line such as `"put 0 0 1 3\r\n" 3*"a" "\r\n"`: those of its quotations, one after the other. A number
/// and `*` before a quotation say how often it stands there.
pub fn bytes_of(alloc: Global, line: &str) -> Result<Vec<u8>> {
    let mut bytes = Vec::new(alloc);
    let mut times = 0;
    for (place, piece) in line.split('"').enumerate() {
        if place % 2 == 0 {
            times = times_of(piece.trim())?;
        } else {
            add_quoted(alloc, &mut bytes, piece, times)?;
        }
    }
    Ok(bytes)
}

// How often the next quotation stands there.
fn times_of(text: &str) -> Result<usize> {
    match text.strip_suffix('*') {
        Some(number) => number.parse::<usize>().context("how often"),
        None => {
            ensure!(text.is_empty(), "not quoted");
            Ok(1)
        }
    }
}

// Adds a quotation so often.
fn add_quoted(alloc: Global, bytes: &mut Vec<u8>, text: &str, times: usize) -> Result<()> {
    let quoted = unescaped(alloc, text)?;
    Ok(add_times(bytes, quoted.as_slice(), times)?)
}

fn add_times(bytes: &mut Vec<u8>, more: &[u8], times: usize) -> Result<(), AllocError> {
    for _ in 0..times {
        bytes.extend_from_slice(more)?;
    }
    Ok(())
}

// A quotation, in which `\r`, `\n`, `\t` and `\x` with two digits are one byte each.
fn unescaped(alloc: Global, text: &str) -> Result<Vec<u8>> {
    let mut bytes = Vec::new(alloc);
    for (place, piece) in text.split('\\').enumerate() {
        if place == 0 {
            bytes.extend_from_slice(piece.as_bytes())?;
        } else {
            add_escaped(&mut bytes, piece.as_bytes())?;
        }
    }
    Ok(bytes)
}

// Adds what stands after a backslash.
fn add_escaped(bytes: &mut Vec<u8>, text: &[u8]) -> Result<()> {
    let (byte, rest) = escape(text)?;
    bytes.push(byte)?;
    Ok(bytes.extend_from_slice(rest)?)
}

// The byte that stands after a backslash, and what follows it.
fn escape(text: &[u8]) -> Result<(u8, &[u8])> {
    match text {
        [b'r', rest @ ..] => Ok((b'\r', rest)),
        [b'n', rest @ ..] => Ok((b'\n', rest)),
        [b't', rest @ ..] => Ok((b'\t', rest)),
        [b'x', high, low, rest @ ..] => Ok((two_digits(*high, *low)?, rest)),
        _ => bail!("no such escape"),
    }
}

fn two_digits(high: u8, low: u8) -> Result<u8> {
    Ok(digit(high)? * 16 + digit(low)?)
}

fn digit(byte: u8) -> Result<u8> {
    match byte {
        b'0'..=b'9' => Ok(byte - b'0'),
        b'a'..=b'f' => Ok(byte - b'a' + 10),
        _ => bail!("no digit"),
    }
}
