//! The sheet: `chan=`, `c=` lines, `p=` lines, `step=`, `drift=`, `req=` lines, rows.

use crate::fields::{after_key, end, first_line, unsigned, values, Read};
use crate::limits::{MOST_BYTES, MOST_REQUIREMENTS, PREDICATES};
use crate::predicate::{Predicate, Predicates, Range, UNSET};
use crate::recording::channels_broken;
use crate::refusal::{when, Refusal};
use crate::rows::parse_rows;
use std::ops;

#[derive(Clone, PartialEq, Eq, Debug)]
pub struct Sheet {
    pub channels: u64,
    /// One for each channel; none where channels isn't 1 to 8.
    pub scales: Vec<u64>,
    pub predicates: Predicates,
    pub step: u64,
    pub drift: u64,
    /// For each `req=` line, in their order, the places in the text of what follows the key,
    /// without the line feed.
    pub requirements: Vec<ops::Range<usize>>,
    /// The place in the text of what stands behind the last of them.
    pub rows_from: usize,
}

/// Entry point: refusals 1 and 12. The whole text is judged, rows too, unless their width is
/// unknown: "12 (no sheet), a seventeenth `req=` line, after 1 and before 2".
pub fn read_sheet(text: &[u8]) -> Result<Sheet, Refusal> {
    when(text.len() > MOST_BYTES, Refusal::Text)?;
    let sheet = read_front(text)?;
    if !channels_broken(sheet.channels) {
        parse_rows(&text[sheet.rows_from..], sheet.channels)?;
    }
    when(sheet.requirements.len() > MOST_REQUIREMENTS, Refusal::TooManyRequirements)?;
    Ok(sheet)
}

/// All that stands before the rows.
fn read_front(text: &[u8]) -> Read<Sheet> {
    let (channels, rest) = number_line(text, "chan=")?;
    let (scales, rest) = scale_lines(rest, channels)?;
    let (predicates, rest) = predicate_lines(rest)?;
    let (step, rest) = number_line(rest, "step=")?;
    let (drift, rest) = number_line(rest, "drift=")?;
    let (requirements, rows_from) = requirement_lines(text, text.len() - rest.len())?;
    Ok(Sheet { channels, scales, predicates, step, drift, requirements, rows_from })
}

/// "A sheet shall take 1 to 16 `req=` lines": the lines from this place on that begin so, one at
/// least. The first that does not is where the rows begin.
fn requirement_lines(text: &[u8], mut place: usize) -> Read<(Vec<ops::Range<usize>>, usize)> {
    let mut requirements = Vec::new();
    while text[place..].starts_with(b"req=") {
        let (line, rest) = first_line(&text[place..])?;
        let to = place + line.len();
        requirements.push(to - after_key(line, "req=")?.len()..to);
        place = text.len() - rest.len();
    }
    when(requirements.is_empty(), Refusal::Text)?;
    Ok((requirements, place))
}

fn number_line<'a>(text: &'a [u8], key: &str) -> Read<(u64, &'a [u8])> {
    let (line, rest) = first_line(text)?;
    Ok((unsigned(values(line, &[key])?[0])?, rest))
}

/// "After `chan=` come lines `c= scale=`, one per channel in order; none is due when chan isn't 1
/// to 8." A scale out of range is no fault of the text.
fn scale_lines(mut text: &[u8], channels: u64) -> Read<(Vec<u64>, &[u8])> {
    let due = if channels_broken(channels) { 0 } else { channels };
    let mut scales = Vec::new();
    for channel in 0..due {
        let (line, rest) = first_line(text)?;
        let fields = values(line, &["c=", "scale="])?;
        when(unsigned(fields[0])? != channel, Refusal::Text)?;
        scales.push(unsigned(fields[1])?);
        text = rest;
    }
    Ok((scales, text))
}

/// "`p=` lines stand by rising number from now on. Gaps in the numbering remain allowed. An
/// unordered sheet breaks the text form (1)." Perhaps there are none.
fn predicate_lines(mut text: &[u8]) -> Read<(Predicates, &[u8])> {
    let mut lines = Vec::new();
    while text.starts_with(b"p=") {
        let (line, rest) = first_line(text)?;
        lines.push(predicate_line(line)?);
        text = rest;
    }
    let rising = lines.windows(2).all(|pair| pair[0].0 < pair[1].0);
    when(!rising, Refusal::Text)?;
    let mut predicates = [UNSET; PREDICATES];
    lines.iter().for_each(|&(number, predicate)| predicates[number] = predicate);
    Ok((predicates, text))
}

fn predicate_line(line: &[u8]) -> Read<(usize, Predicate)> {
    let fields = values(line, &["p=", "ch=", "lo=", "hi="])?;
    let number = unsigned(fields[0])?;
    when(number >= PREDICATES as u64, Refusal::Text)?;
    let channel = unsigned(fields[1])?;
    let range = match (end(fields[2])?, end(fields[3])?) {
        (None, None) => Range::Free,
        (Some(lo), None) => Range::AtLeast(lo),
        (None, Some(hi)) => Range::AtMost(hi),
        (Some(lo), Some(hi)) => Range::Between(lo, hi),
    };
    Ok((number as usize, Predicate { channel, range }))
}
