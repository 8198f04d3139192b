//! The peer's types as flat numbers, and the peer in the library's place.

use crate::kept;
use crate::library::{Library, ENDS, NODES, NUMBERS, PLACES, RANGES, SCALES};
use crate::names::{self, Call, Making, Written};
use peer::limits::MOST_NODES;
use peer::predicate::{Predicate, Predicates, Range, UNSET};
use peer::recording::Recording;
use peer::refusal::Refusal;
use peer::sheet::Sheet;
use peer::table::{Node, Table};
use peer::verdict::Verdict;
use peer::watch::Watch;

/// Seven numbers for each of 64 nodes: kind, left, right, lo, hi, and its two marks. Places beyond the
/// count are 0.
pub fn flat_nodes(table: &Table) -> [u64; NODES] {
    let mut nodes = [0; NODES];
    for (place, own) in nodes.as_chunks_mut().0.iter_mut().zip(&table.nodes) {
        let Node { kind, left, right, lo, hi, open_lo, open_hi } = *own;
        *place = [kind, left, right, lo, hi, open_lo, open_hi];
    }
    nodes
}

/// A predicate as its range (0 unset, 1 free, 2 at least, 3 at most, 4 between), its channel, lo
/// and hi, 0 where the range has no such end.
fn flat_predicate(predicate: &Predicate) -> (u64, u64, i64, i64) {
    let (range, lo, hi) = match predicate.range {
        Range::Unset => (0, 0, 0),
        Range::Free => (1, 0, 0),
        Range::AtLeast(lo) => (2, lo, 0),
        Range::AtMost(hi) => (3, 0, hi),
        Range::Between(lo, hi) => (4, lo, hi),
    };
    (range, predicate.channel, lo, hi)
}

/// Two numbers for each predicate, range and channel, and two, lo and hi.
pub fn flat_predicates(predicates: &Predicates) -> ([u64; RANGES], [i64; ENDS]) {
    let (mut ranges, mut ends) = ([0; RANGES], [0; ENDS]);
    let places = ranges.chunks_mut(2).zip(ends.chunks_mut(2));
    for (predicate, (own_range, own_ends)) in predicates.iter().zip(places) {
        let (range, channel, lo, hi) = flat_predicate(predicate);
        own_range.copy_from_slice(&[range, channel]);
        own_ends.copy_from_slice(&[lo, hi]);
    }
    (ranges, ends)
}

/// Channels, step, drift, the rows' first place, the count of requirements.
fn flat_numbers(sheet: &Sheet) -> [u64; NUMBERS] {
    let count = sheet.requirements.len() as u64;
    [sheet.channels, sheet.step, sheet.drift, sheet.rows_from as u64, count]
}

/// Two numbers for each requirement: its first place in the text and the place behind its last.
/// Places beyond the count are 0.
fn flat_places(sheet: &Sheet) -> [u64; PLACES] {
    let mut places = [0; PLACES];
    for (place, requirement) in places.chunks_mut(2).zip(&sheet.requirements) {
        place.copy_from_slice(&[requirement.start as u64, requirement.end as u64]);
    }
    places
}

/// The scales of the channels, 0 beyond them.
fn flat_scales(sheet: &Sheet) -> [u64; SCALES] {
    padded(&sheet.scales)
}

/// The numbers of a lent slice, 0 for each that it does not have.
fn padded<T: Copy + Default, const N: usize>(lent: &[T]) -> [T; N] {
    std::array::from_fn(|place| lent.get(place).copied().unwrap_or_default())
}

/// The table of so many nodes, from their numbers.
pub fn table(nodes: &[u64], count: u64) -> Table {
    let padded: [u64; NODES] = padded(nodes);
    let mut nodes = Vec::new();
    for &[kind, left, right, lo, hi, open_lo, open_hi] in padded.as_chunks().0 {
        nodes.push(Node { kind, left, right, lo, hi, open_lo, open_hi });
    }
    // A count beyond 64 is refused whatever it is; one node too many stands for it.
    nodes.resize(count.min(MOST_NODES as u64 + 1) as usize, Node::default());
    Table { nodes }
}

fn predicate((range, channel, lo, hi): (u64, u64, i64, i64)) -> Predicate {
    let range = match range {
        0 => Range::Unset,
        1 => Range::Free,
        2 => Range::AtLeast(lo),
        3 => Range::AtMost(hi),
        _ => Range::Between(lo, hi),
    };
    Predicate { channel, range }
}

fn predicates(ranges: &[u64], ends: &[i64]) -> Predicates {
    let (ranges, ends) = (padded::<_, RANGES>(ranges), padded::<_, ENDS>(ends));
    let mut predicates = [UNSET; 16];
    for (p, place) in predicates.iter_mut().enumerate() {
        *place = predicate((ranges[2 * p], ranges[2 * p + 1], ends[2 * p], ends[2 * p + 1]));
    }
    predicates
}

fn recording(call: &Call) -> Recording {
    Recording {
        channels: call.channels,
        scales: call.scales.to_vec(),
        times: call.times.to_vec(),
        values: call.values.to_vec(),
    }
}

/// As much of the contents as there are places for.
fn write<T: Copy>(contents: &[T], lent: &mut [T]) {
    lent.iter_mut().zip(contents).for_each(|(place, number)| *place = *number);
}

/// The number of a refusal; where there is none, what was found is written.
fn hand<T>(found: Result<T, Refusal>, write: impl FnOnce(T)) -> u64 {
    match found {
        Ok(found) => {
            write(found);
            0
        }
        Err(refusal) => refusal.number(),
    }
}

/// The peer.
pub struct Peer;

impl Library for Peer {
    fn answer(&self, text: &[u8], lines: &mut [u8]) -> usize {
        let printed = peer::answer::answer(text);
        write(&printed, lines);
        printed.len()
    }

    fn sheet(&self, text: &[u8], sheet: names::Sheet) -> u64 {
        hand(peer::sheet::read_sheet(text), |read| {
            let (ranges, ends) = flat_predicates(&read.predicates);
            write(&flat_numbers(&read), sheet.numbers);
            write(&flat_places(&read), sheet.places);
            write(&flat_scales(&read), sheet.scales);
            write(&ranges, sheet.ranges);
            write(&ends, sheet.ends);
        })
    }

    fn requirement(&self, text: &[u8], nodes: &mut [u64], count: &mut [u64]) -> u64 {
        hand(peer::grammar::read_requirement(text), |read| {
            write(&flat_nodes(&read), nodes);
            write(&[read.count() as u64], count);
        })
    }

    fn write(&self, nodes: &[u64], count: u64, text: &mut [u8]) -> Written {
        let written = peer::writer::write_requirement(&table(nodes, count), text);
        Written { number: written.refusal.map_or(0, Refusal::number), length: written.length }
    }

    fn rows(
        &self,
        text: &[u8],
        channels: u64,
        times: &mut [u64],
        values: &mut [i64],
        counts: &mut [u64],
    ) -> u64 {
        hand(peer::rows::read_rows(text, channels, times, values), |read| {
            write(&[read.measured as u64, read.filled as u64], counts);
        })
    }

    fn distance(
        &self,
        flat: (u64, u64, i64, i64),
        scale: u64,
        value: i64,
        result: &mut [i64],
    ) -> u64 {
        let found = peer::predicate::judged_distance(&predicate(flat), scale, value);
        hand(found, |distance| write(&[distance], result))
    }

    fn margin(&self, call: &Call, work: &mut [i64], result: &mut [i64]) -> u64 {
        let table = table(call.nodes, call.count);
        let predicates = predicates(call.ranges, call.ends);
        let found = peer::margin::margin(&table, &predicates, &recording(call), work);
        hand(found, |margin| write(&[margin], result))
    }

    fn verdict(
        &self,
        call: &Call,
        step: u64,
        drift: u64,
        work: &mut [i64],
        result: &mut [i64],
    ) -> u64 {
        let table = table(call.nodes, call.count);
        let predicates = predicates(call.ranges, call.ends);
        let judged =
            peer::verdict::verdict(&table, &predicates, &recording(call), step, drift, work);
        hand(judged, |judgement| {
            let verdict = match judgement.verdict {
                Verdict::NotShown => 0,
                Verdict::Holds => 1,
                Verdict::Fails => 2,
            };
            write(&[verdict, judgement.hold, judgement.fail], result);
        })
    }

    fn watch_fresh(&self, making: &Making, numbers: &mut [u64], cells: &mut [i64]) -> u64 {
        let table = table(making.nodes, making.count);
        let predicates = predicates(making.ranges, making.ends);
        let watch = Watch::fresh(&table, &predicates, making.scales);
        let refusal = watch.refusal();
        if !kept::fits(numbers, cells) {
            return refusal.unwrap_or(Refusal::Work).number();
        }
        kept::keep(watch, numbers, cells);
        refusal.map_or(0, Refusal::number)
    }

    fn watch_row(&self, numbers: &mut [u64], cells: &mut [i64], time: u64, values: &[i64]) -> u64 {
        let Some(before) = kept::watch(numbers, cells) else { return Refusal::Work.number() };
        let mut watch = before.clone();
        let taken = watch.row(time, values);
        // Whatever the peer makes of a row is kept, so that what it must not do is seen.
        if watch != before {
            kept::keep(watch, numbers, cells);
        }
        hand(taken, |()| ())
    }

    fn watch_margin(&self, numbers: &[u64], cells: &[i64], result: &mut [i64]) -> u64 {
        let Some(watch) = kept::watch(numbers, cells) else { return Refusal::Work.number() };
        hand(watch.margin(), |margin| write(&[margin], result))
    }
}
