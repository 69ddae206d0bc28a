//! Bytes that are written as text: a printable character stands for itself, `\a5` for the byte 0xA5, and
//! `\00*240;` for 240 bytes of 0. And spans of numbers.

use crate::words::{bad_line, word};
use anyhow::Result;
use loop_record::Span;
use loop_store::{Clip, StoreFault};
use std::alloc::Global;
use std::cell::Cell;
use std::io::{self, Write};
use std::str::SplitWhitespace;

/// Prints words.
pub(crate) fn say(out: &mut Vec<u8>, words: &str) -> Result<()> {
    Ok(out.write_all(words.as_bytes())?)
}

/// Prints a number and what it counts.
pub(crate) fn print_count(out: &mut Vec<u8>, count: u64, what: &str) -> Result<()> {
    Ok(write!(out, "{count}{what}")?)
}

/// Prints how many calls were counted.
pub(crate) fn print_calls(out: &mut Vec<u8>, calls: &Cell<u64>) -> Result<()> {
    say(out, "in ")?;
    print_count(out, calls.get(), " calls")
}

/// Prints a refusal.
pub(crate) fn print_fault(out: &mut Vec<u8>, fault: StoreFault) -> Result<()> {
    Ok(write!(out, "{fault:?}")?)
}

// The value of a digit.
fn digit(byte: u8) -> Option<u8> {
    match byte {
        b'0'..=b'9' => Some(byte.wrapping_sub(b'0')),
        b'a'..=b'f' => Some(byte.wrapping_sub(b'a').wrapping_add(10)),
        _ => None,
    }
}

// The byte of two digits.
fn pair(high: u8, low: u8) -> Result<u8> {
    match (digit(high), digit(low)) {
        (Some(high), Some(low)) => Ok(high.wrapping_mul(16).wrapping_add(low)),
        _ => Err(bad_line()),
    }
}

// The number at the front of a text, and what follows the semicolon after it.
fn count(text: &[u8]) -> Result<(u64, &[u8])> {
    let mut number = 0u64;
    for (place, byte) in text.iter().enumerate() {
        match digit(*byte) {
            Some(digit) => number = number.wrapping_mul(10).wrapping_add(u64::from(digit)),
            None => return Ok((number, text.get(place.wrapping_add(1)..).unwrap_or(&[]))),
        }
    }
    Err(bad_line())
}

// The first byte of a text, and the rest.
fn first(text: &[u8]) -> Result<(u8, &[u8])> {
    match text {
        [b'\\', high, low, rest @ ..] => Ok((pair(*high, *low)?, rest)),
        [byte, rest @ ..] => Ok((*byte, rest)),
        [] => Err(bad_line()),
    }
}

// The first byte of a text with its count, and the rest.
fn run(text: &[u8]) -> Result<(u8, u64, &[u8])> {
    let (byte, rest) = first(text)?;
    match rest {
        [b'*', rest @ ..] => {
            let (times, rest) = count(rest)?;
            Ok((byte, times, rest))
        }
        _ => Ok((byte, 1, rest)),
    }
}

/// The bytes of a word.
pub(crate) fn bytes(alloc: Global, word: &str) -> Result<Vec<u8>> {
    let mut bytes = Vec::new(alloc);
    let mut rest = word.as_bytes();
    for _ in 0..word.len() {
        if rest.is_empty() {
            break;
        }
        let (byte, times, behind) = run(rest)?;
        for _ in 0..times {
            bytes.push(byte)?;
        }
        rest = behind;
    }
    Ok(bytes)
}

/// The bytes of the next word.
pub(crate) fn next_bytes(alloc: Global, words: &mut SplitWhitespace) -> Result<Vec<u8>> {
    bytes(alloc, word(words)?)
}

// Prints a byte.
fn print_byte(out: &mut Vec<u8>, byte: u8) -> io::Result<()> {
    if byte.is_ascii_graphic() && byte != b'\\' && byte != b'*' {
        out.write_all(&[byte])
    } else {
        write!(out, "\\{byte:02x}")
    }
}

// How many times the first byte is repeated at the front.
fn times_first(bytes: &[u8], first: u8) -> usize {
    let mut times = 0usize;
    for byte in bytes {
        if *byte != first {
            break;
        }
        times = times.wrapping_add(1);
    }
    times
}

// Prints a byte that is repeated this many times.
fn print_run(out: &mut Vec<u8>, byte: u8, times: usize) -> io::Result<()> {
    if 4 <= times {
        print_byte(out, byte)?;
        return write!(out, "*{times};");
    }
    for _ in 0..times {
        print_byte(out, byte)?;
    }
    Ok(())
}

/// Prints bytes as the word that they are read from.
pub(crate) fn print_bytes(out: &mut Vec<u8>, bytes: &[u8]) -> io::Result<()> {
    let mut rest = bytes;
    for _ in 0..bytes.len() {
        let Some(first) = rest.first() else {
            break;
        };
        let times = times_first(rest, *first);
        print_run(out, *first, times)?;
        rest = rest.get(times..).unwrap_or(&[]);
    }
    Ok(())
}

/// Prints this many bytes from a place on, or nothing where there are no such bytes.
pub(crate) fn print_part(out: &mut Vec<u8>, bytes: &[u8], (at, count): (u64, u64)) -> Result<()> {
    let at = at as usize;
    match bytes.get(at..at.saturating_add(count as usize)) {
        Some(part) => Ok(print_bytes(out, part)?),
        None => Ok(()),
    }
}

// Prints the numbers from one to another.
fn print_span(out: &mut Vec<u8>, from: u64, to: u64) -> io::Result<()> {
    write!(out, " {from}..{to}")
}

/// Prints numbers as spans, each after a space: ` 2..3 6..8`, or ` none`.
pub(crate) fn print_numbers(out: &mut Vec<u8>, numbers: &[u64]) -> io::Result<()> {
    let mut rest = numbers.iter();
    let Some(first) = rest.next() else {
        return out.write_all(b" none");
    };
    let (mut from, mut to) = (*first, *first);
    for number in rest {
        if *number != to.wrapping_add(1) {
            print_span(out, from, to)?;
            from = *number;
        }
        to = *number;
    }
    print_span(out, from, to)
}

/// Prints the frames that are held.
pub(crate) fn print_holds(out: &mut Vec<u8>, numbers: &[u64]) -> io::Result<()> {
    out.write_all(b"holds")?;
    print_numbers(out, numbers)
}

/// Prints runs of numbers, each after a space: `finds 2..3 6..8`, or `finds none`.
pub(crate) fn print_runs(out: &mut Vec<u8>, runs: &[Span]) -> io::Result<()> {
    out.write_all(b"finds")?;
    if runs.is_empty() {
        return out.write_all(b" none");
    }
    for run in runs {
        print_span(out, run.from, run.to)?;
    }
    Ok(())
}

// Prints a clip.
fn print_clip(out: &mut Vec<u8>, clip: &Clip) -> io::Result<()> {
    let id = clip.id;
    write!(out, " {id}:")?;
    let (from, to) = (clip.from, clip.to);
    write!(out, "{from}..{to}")?;
    let tag = clip.tag;
    if tag == 0 {
        return Ok(());
    }
    write!(out, " tag {tag}")
}

/// Prints clips, each after a space: ` 0:2..3 1:6..6 tag 9`, or ` none`.
pub(crate) fn print_clips(out: &mut Vec<u8>, clips: &[Clip]) -> io::Result<()> {
    if clips.is_empty() {
        return out.write_all(b" none");
    }
    for clip in clips {
        print_clip(out, clip)?;
    }
    Ok(())
}
