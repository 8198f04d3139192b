//! Sheets and their rows.

use crate::names;
use crate::predicate::{self, Predicates};
use crate::refusal::Refusal;

/// Requirements that a sheet may have; one more is refused by 12.
pub const MOST_REQUIREMENTS: usize = names::MOST_REQUIREMENTS;

/// What a sheet says, its requirements and its rows as parts of its text.
#[derive(Clone, PartialEq, Eq, Debug)]
pub struct Sheet<'a> {
    pub channels: u64,
    /// Those of the channels where they are 1 to 8, else none.
    pub scales: Vec<u64>,
    pub predicates: Predicates,
    pub step: u64,
    pub drift: u64,
    /// What follows each `req=`, 1 to 16 of them, for [`crate::read_requirement`].
    pub requirements: Vec<&'a [u8]>,
    /// What stands behind the last `req=` line, for [`read_rows`].
    pub rows: &'a [u8],
}

/// Reads a sheet. Refusals 1 and 12, of the whole text: its rows are judged too where channels is
/// 1 to 8. Then a `c=` line is due for each channel, in order, and otherwise none. `p=` lines stand
/// by rising number, gaps allowed; any other order, or a number twice, is refused by 1. A scale out
/// of range is read; margin and verdict refuse it.
pub fn read_sheet(text: &[u8]) -> Result<Sheet<'_>, Refusal> {
    let (mut numbers, mut places) = ([0; names::NUMBERS], [0; names::PLACES]);
    let mut scales = [0; names::SCALES];
    let mut flat = predicate::Flat::BLANK;
    let lent = names::Sheet {
        numbers: &mut numbers,
        places: &mut places,
        scales: &mut scales,
        ranges: &mut flat.ranges,
        ends: &mut flat.ends,
    };
    Refusal::check(names::sheet(text, lent))?;
    let [channels, step, drift, rows, count] = numbers;
    // Those of the channels are in front; where channels is not 1 to 8, none was read.
    let own = if channels <= names::SCALES as u64 { channels as usize } else { 0 };
    let part = |place: &[u64]| &text[place[0] as usize..place[1] as usize];
    Ok(Sheet {
        channels,
        scales: scales[..own].to_vec(),
        predicates: predicate::of_flat(&flat),
        step,
        drift,
        requirements: places.chunks_exact(2).take(count as usize).map(part).collect(),
        rows: &text[rows as usize..],
    })
}

/// How many rows there are.
#[derive(Clone, Copy, PartialEq, Eq, Debug, Default)]
pub struct Counts {
    pub measured: usize,
    pub filled: usize,
}

/// Reads rows into the lent slices: a time for each measured row and `channels` values, in order;
/// places beyond the measured rows keep their contents. Filled rows are checked and counted.
///
/// Refusals 1, 4 (channels) and 5 (more measured rows than 4,096 or than the slices hold), under
/// which both slices keep their contents.
pub fn read_rows(
    text: &[u8],
    channels: u64,
    times: &mut [u64],
    values: &mut [i64],
) -> Result<Counts, Refusal> {
    let mut counts = [0; names::COUNTS];
    Refusal::check(names::rows(text, channels, times, values, &mut counts))?;
    Ok(Counts { measured: counts[0] as usize, filled: counts[1] as usize })
}
