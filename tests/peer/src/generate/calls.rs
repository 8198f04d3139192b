//! Calls of the library's entry points with tables that no text gives (shared nodes, nodes that
//! the root doesn't reach) and with numbers that no sheet can hold.

use super::marks;
use super::prng::Prng;
use super::requirements::Taste;
use super::scales::{self, BAD};
use crate::limits::{LARGEST_END, LARGEST_VALUE, LAST_TIME, NO_END};
use crate::predicate::{Predicate, Predicates, Range, UNSET};
use crate::recording::Recording;
use crate::refusal::{first_of, last_to_first};
use crate::table::{kind, Node, Table};

/// What margin and verdict are given.
#[derive(Clone, Debug)]
pub struct Call {
    pub table: Table,
    pub predicates: Predicates,
    pub recording: Recording,
    pub step: u64,
    pub drift: u64,
    /// The work slice as it is lent, with noise in it.
    pub work: Vec<i64>,
}

/// A call, and the numbers that it must be refused by: of the margin and of the verdict, 0 for
/// none.
pub struct Foretold {
    pub call: Call,
    pub margin: u64,
    pub verdict: u64,
}

pub fn call(rng: &mut Prng) -> Foretold {
    let mut call = sound(rng);
    let faults: Vec<u64> = if rng.once_in(2) {
        Vec::new()
    } else {
        (0..1 + rng.below(2)).map(|_| rng.pick(&[3, 4, 13, 5, 6, 7, 9, 10, 11])).collect()
    };
    // A fault may undo one that counts later, and wins anyway.
    let faults = last_to_first(&faults);
    for &fault in &faults {
        put(rng, &mut call, fault);
    }
    let cells = call.table.count() * call.recording.rows();
    let length = lent(rng, cells);
    call.work = (0..length).map(|_| rng.word() as i64).collect();
    let first = |mut numbers: Vec<u64>, short: bool| {
        numbers.extend(short.then_some(8));
        first_of(&numbers)
    };
    // The margin knows neither step nor drift.
    let plain = faults.iter().copied().filter(|fault| ![9, 10, 11].contains(fault)).collect();
    Foretold {
        margin: first(plain, length < cells),
        verdict: first(faults, length < 2 * cells),
        call,
    }
}

/// Lengths about what margin and verdict need.
fn lent(rng: &mut Prng, cells: usize) -> usize {
    let about = rng.pick(&[cells, 2 * cells, 2 * cells, 2 * cells + 9]);
    match rng.below(6) {
        0 => about.saturating_sub(1),
        1 => about + 1,
        2 if rng.once_in(4) => 0,
        _ => about,
    }
}

/// A call that nothing is wrong with.
pub(super) fn sound(rng: &mut Prng) -> Call {
    let channels = 1 + rng.below(3) as u64;
    let rows = if rng.once_in(12) { 40 + rng.below(30) } else { 1 + rng.below(12) };
    let step = rng.pick(&[1, 1, 2, 3, 10]);
    let scales = scales::scales(rng, channels);
    let units = rng.below(5) as u64;
    let drift = scales::drift(rng, &scales, units);
    // The numbers of a channel with a small scale may be large ones.
    let widest = rng.pick(&[8, 2 * drift]);
    let mut times = vec![rng.below(9) as u64];
    let mut values: Vec<i64> = (0..channels).map(|_| rng.between(-6, 6)).collect();
    for row in 1..rows {
        times.push(times[row - 1] + rng.between(1, step as i64) as u64);
        for scale in &scales {
            let before = values[values.len() - channels as usize];
            let jump = (2 * drift / scale).min(widest) as i64;
            values.push(before + rng.between(-jump, jump));
        }
    }
    let mut predicates = [UNSET; 16];
    for predicate in predicates.iter_mut() {
        if !rng.once_in(4) {
            *predicate =
                Predicate { channel: rng.below(channels as usize) as u64, range: range(rng) };
        }
    }
    predicates[0].range = Range::AtLeast(rng.between(-8, 8));
    if rng.once_in(10) {
        put_at_limits(rng, &mut predicates, &mut values, channels as usize);
    }
    let recording = Recording { channels, scales, times, values };
    let table = table(rng, &predicates, step as i64);
    Call { table, predicates, recording, step, drift, work: Vec::new() }
}

/// Values and ends at their limits, where products are largest. No channel's value changes, so that
/// every scale is accepted.
fn put_at_limits(rng: &mut Prng, predicates: &mut Predicates, values: &mut [i64], channels: usize) {
    let limits = [-LARGEST_VALUE, LARGEST_VALUE];
    for channel in 0..channels {
        let value = rng.pick(&limits);
        values.iter_mut().skip(channel).step_by(channels).for_each(|place| *place = value);
    }
    for predicate in predicates {
        predicate.range = match predicate.range {
            Range::AtLeast(_) => Range::AtLeast(rng.pick(&limits)),
            Range::AtMost(_) => Range::AtMost(rng.pick(&limits)),
            Range::Between(..) => Range::Between(limits[0], limits[1]),
            other => other,
        };
    }
}

fn range(rng: &mut Prng) -> Range {
    let (one, other) = (rng.between(-12, 12), rng.between(-12, 12));
    match rng.below(7) {
        0 => Range::Free,
        1 | 2 => Range::AtLeast(one),
        3 | 4 => Range::AtMost(one),
        _ => Range::Between(one.min(other), one.max(other)),
    }
}

fn table(rng: &mut Prng, predicates: &Predicates, unit: i64) -> Table {
    let set: Vec<usize> = (0..16).filter(|&number| predicates[number].is_set()).collect();
    any_table(rng, &Taste { predicates: set, unit, reach: 12 })
}

/// Children are any earlier nodes, mostly late ones, so that many are shared and some unreached.
pub(super) fn any_table(rng: &mut Prng, taste: &Taste) -> Table {
    let count = if rng.once_in(15) { 64 } else { 1 + rng.below(12) };
    let mut nodes = Vec::new();
    for k in 0..count {
        let node =
            if k == 0 || rng.once_in(3) { leaf(rng, taste) } else { operator(rng, taste, k) };
        nodes.push(node);
    }
    Table { nodes }
}

pub(super) fn leaf(rng: &mut Prng, taste: &Taste) -> Node {
    if rng.once_in(10) {
        Node { kind: kind::TRUE, ..Node::default() }
    } else {
        Node { kind: kind::PREDICATE, left: rng.pick(&taste.predicates) as u64, ..Node::default() }
    }
}

fn operator(rng: &mut Prng, taste: &Taste, k: usize) -> Node {
    let child = |rng: &mut Prng| {
        let back = 1 + rng.below(4);
        (k - 1 - rng.below(k.min(back))) as u64
    };
    let kind = kind::NOT + rng.below(7) as u64;
    let (left, right) = (child(rng), child(rng));
    over(rng, taste, kind, left, right)
}

/// The node of that kind over these, of which one with one operand takes the first; a window is drawn.
pub(super) fn over(rng: &mut Prng, taste: &Taste, kind: u64, left: u64, right: u64) -> Node {
    let binary = matches!(kind, kind::AND | kind::OR | kind::UNTIL | kind::RELEASE);
    let right = if binary { right } else { 0 };
    let node = Node { kind, left, right, ..Node::default() };
    if kind >= kind::UNTIL {
        node.with(taste.window(rng))
    } else {
        node
    }
}

fn put(rng: &mut Prng, call: &mut Call, fault: u64) {
    match fault {
        3 => break_table(rng, call),
        4 => break_channels_or_predicate(rng, call),
        13 => break_scales(rng, call),
        5 if rng.once_in(2) => miscount_scales(rng, call),
        5 => break_samples(rng, call),
        6 => break_times(rng, call),
        7 => {
            let place = rng.below(call.recording.values.len());
            let beyond = [LARGEST_VALUE + 1, -LARGEST_VALUE - 1, i64::MAX, i64::MIN];
            call.recording.values[place] = rng.pick(&beyond);
        }
        9 => match rng.below(3) {
            0 => call.step = 0,
            1 => call.step = rng.pick(&[1_000_000_001, u64::MAX]),
            _ => call.drift = rng.pick(&[1_000_000_001, u64::MAX]),
        },
        10 => {
            two_rows(call);
            let place = rng.below(call.recording.rows() - 1);
            let times = &mut call.recording.times;
            let wider = call.step + 1 - (times[place + 1] - times[place]).min(call.step);
            times[place + 1..].iter_mut().for_each(|time| *time += wider);
        }
        _ => {
            two_rows(call);
            let place = rng.below(call.recording.values.len() - call.recording.channels as usize);
            let channels = call.recording.channels as usize;
            let scale = call.recording.scales[place % channels];
            let jump = (2 * call.drift / scale) as i64 + 1;
            let before = call.recording.values[place];
            let toward_zero = if before > 0 { -jump } else { jump };
            let away = before - toward_zero;
            let fits = away.abs() <= LARGEST_VALUE && rng.once_in(2);
            call.recording.values[place + channels] =
                if fits { away } else { before + toward_zero };
        }
    }
}

fn two_rows(call: &mut Call) {
    if call.recording.rows() == 1 {
        let recording = &mut call.recording;
        recording.times.push(recording.times[0] + 1);
        recording.values.extend_from_within(..);
    }
}

pub(super) fn break_table(rng: &mut Prng, call: &mut Call) {
    let nodes = &mut call.table.nodes;
    let place = rng.below(nodes.len());
    nodes[place] = broken_node(rng, place as u64);
    match rng.below(10) {
        0 => nodes.clear(),
        1 => nodes.resize(65, Node::default()),
        2 => {
            nodes[place] = Node { kind: kind::PREDICATE, left: 15, ..Node::default() };
            call.predicates[15] = UNSET;
        }
        _ => {}
    }
}

/// A node that breaks a rule of the table alone, as its node of number k.
pub(super) fn broken_node(rng: &mut Prng, k: u64) -> Node {
    if rng.once_in(3) {
        return wrongly_marked(rng);
    }
    let far = rng.pick(&[k, k + 1, u64::MAX]);
    let odd = rng.pick(&[1, 5, u64::MAX]);
    let node = |kind, left, right, lo, hi| Node { kind, left, right, lo, hi, ..Node::default() };
    match rng.below(12) {
        0 => node(9 + odd % 9, 0, 0, 0, 0),
        1 => node(0, odd, 0, 0, 0),
        2 => node(rng.below(2) as u64, 0, odd, 0, 0),
        3 => node(rng.below(2) as u64, 0, 0, rng.pick(&[0, odd]), odd),
        4 => node(1, rng.pick(&[16, 17, u64::MAX]), 0, 0, 0),
        5 => node(2 + rng.below(7) as u64, far, 0, 0, 0),
        6 => node(3 + rng.below(4) as u64, 0, far, 0, 0),
        7 => node(2 + rng.below(3) as u64, 0, 0, odd, odd),
        8 => node(5 + rng.below(4) as u64, 0, 0, 6, 5),
        9 => node(
            5 + rng.below(4) as u64,
            0,
            0,
            0,
            rng.pick(&[1_000_000_001, NO_END - 1, NO_END + 1, u64::MAX]),
        ),
        10 => node(5 + rng.below(4) as u64, 0, 0, rng.pick(&[1_000_000_001, NO_END]), NO_END),
        _ => node(7 + rng.below(2) as u64, 0, odd, 0, 0),
    }
}

/// A node that, behind one of number 0, breaks a rule by its marks alone.
fn wrongly_marked(rng: &mut Prng) -> Node {
    let timed = Node { kind: kind::UNTIL + rng.below(4) as u64, ..Node::default() };
    match rng.below(4) {
        0 => rng.pick(&marks::out_of_place()),
        1 => {
            let mark = rng.pick(&[2, 3, 1 << 32, u64::MAX]);
            let window = Node { hi: rng.pick(&[9, LARGEST_END, NO_END]), ..timed };
            match rng.below(3) {
                0 => Node { open_lo: mark, ..window },
                1 => Node { open_hi: mark, ..window },
                _ => Node { open_lo: mark, open_hi: mark, ..window },
            }
        }
        _ => timed.with(marks::refused(rng)),
    }
}

fn break_channels_or_predicate(rng: &mut Prng, call: &mut Call) {
    if rng.once_in(4) {
        call.recording.channels = rng.pick(&[0, 9, u64::MAX]);
        return;
    }
    break_predicate(rng, call);
}

pub(super) fn break_predicate(rng: &mut Prng, call: &mut Call) {
    let channels = call.recording.channels;
    let number = rng.below(16);
    let set = Predicate { channel: 0, range: Range::Free };
    let beyond = [LARGEST_VALUE + 1, -LARGEST_VALUE - 1, i64::MAX, i64::MIN];
    let end = rng.pick(&beyond);
    // An unset one would stand for a fault of its own, so a free one takes its place.
    call.predicates[number] = match rng.below(6) {
        0 => Predicate { channel: rng.pick(&[channels, channels + 1, u64::MAX]), ..set },
        1 => Predicate { range: Range::AtLeast(end), ..set },
        2 => Predicate { range: Range::AtMost(end), ..set },
        3 => Predicate { range: Range::Between(end.min(0), end.max(0)), ..set },
        4 => Predicate { range: Range::Between(1, 0), ..set },
        _ => Predicate { range: Range::Between(i64::MAX, i64::MIN), ..set },
    };
}

/// Scales out of range: of a channel, or beyond the channels' own, where the count is wrong too.
fn break_scales(rng: &mut Prng, call: &mut Call) {
    if rng.once_in(2) {
        miscount_scales(rng, call);
    }
    let scales = &mut call.recording.scales;
    let place = match rng.below(3) {
        0 => 0,
        1 => scales.len().saturating_sub(1),
        _ => rng.below(scales.len().max(1)),
    };
    if scales.is_empty() {
        scales.push(1);
    }
    scales[place] = rng.pick(&BAD);
}

/// Not one scale for each channel: none, one too few, one too many, nine, many.
fn miscount_scales(rng: &mut Prng, call: &mut Call) {
    let count = call.recording.scales.len();
    let fewer = count.saturating_sub(1);
    let length = rng.pick(&[0, fewer, fewer, count + 1, count + 1, 9, 9, 200]);
    call.recording.scales.resize(length, rng.pick(&[1, 10, 1_000]));
}

fn break_samples(rng: &mut Prng, call: &mut Call) {
    let recording = &mut call.recording;
    match rng.below(5) {
        0 => {
            recording.times.clear();
            recording.values.clear();
        }
        1 => recording.times.clear(),
        2 => {
            recording.values.pop();
        }
        3 => recording.values.push(0),
        _ => {
            recording.times = (0..4_097).collect();
            recording.values = vec![0; 4_097 * recording.channels as usize];
        }
    }
}

fn break_times(rng: &mut Prng, call: &mut Call) {
    let times = &mut call.recording.times;
    let last = times.len() - 1;
    if last == 0 || rng.once_in(3) {
        times[last] = rng.pick(&[LAST_TIME + 1, u64::MAX]);
    } else {
        let place = 1 + rng.below(last);
        times[place] = times[place - 1] - rng.below(2) as u64 * times[place - 1].min(1);
    }
}
