//! Sheets that nothing is wrong with.

use super::draft::{Draft, PredicateLine};
use super::prng::Prng;
use super::requirements::{written, Taste};
use super::scales::{self, near_scales};
use crate::limits::{
    LARGEST_DRIFT, LARGEST_SIGNED, LARGEST_UNSIGNED, LARGEST_VALUE, MOST_REQUIREMENTS,
};
use crate::rows::Row;
use crate::tree::Shared;

/// An accepted sheet and the trees that its requirements were written from.
pub struct Sound {
    pub draft: Draft,
    pub trees: Vec<Shared>,
}

/// How many requirements a sheet has: mostly one, now and then as many as there may be.
fn requirements_of(rng: &mut Prng) -> usize {
    match rng.below(60) {
        0 => MOST_REQUIREMENTS,
        1..=15 => 2 + rng.below(3),
        _ => 1,
    }
}

/// So many trees. Some repeat an earlier one, so that margins are equal.
fn trees(rng: &mut Prng, taste: &Taste, count: usize, operators: usize) -> Vec<Shared> {
    let mut trees: Vec<Shared> = Vec::new();
    for _ in 0..count {
        let tree = if !trees.is_empty() && rng.once_in(4) {
            trees[rng.below(trees.len())].clone()
        } else {
            taste.tree(rng, operators)
        };
        trees.push(tree);
    }
    trees
}

/// Each tree's text, with parentheses of its own.
fn texts(rng: &mut Prng, trees: &[Shared]) -> Vec<Vec<u8>> {
    trees.iter().map(|tree| written(tree, rng, 10).into_bytes()).collect()
}

/// The measures of a sheet, from which the rest is drawn.
struct Measures {
    scales: Vec<u64>,
    rows: usize,
    step: u64,
    drift: u64,
    /// Neighbouring values of each channel differ by at most this.
    jumps: Vec<i64>,
    requirements: usize,
    operators: usize,
}

/// Any sheet: mostly small numbers, where equalities are frequent; now and then the largest.
pub fn sound(rng: &mut Prng) -> Sound {
    let requirements = requirements_of(rng);
    sound_of(rng, requirements)
}

/// Any sheet with so many requirements.
pub fn sound_of(rng: &mut Prng, requirements: usize) -> Sound {
    if rng.once_in(8) {
        return extreme(rng, requirements);
    }
    let most = if rng.once_in(6) { 8 } else { 2 };
    let channels = rng.between(1, most) as u64;
    let scales = scales::scales(rng, channels);
    let units = rng.between(0, 6) as u64;
    let drift = scales::drift(rng, &scales, units);
    let measures = Measures {
        jumps: jumps(rng, &scales, drift),
        scales,
        rows: rng.between(1, 24) as usize,
        step: rng.pick(&[1, 1, 2, 3, 5, 900]),
        drift,
        requirements,
        operators: rng.below(9),
    };
    build(rng, measures)
}

/// At most twice the drift in the scaled unit; often less, so that histories exist.
fn jumps(rng: &mut Prng, scales: &[u64], drift: u64) -> Vec<i64> {
    let most = rng.pick(&[0, drift / 2, drift, 2 * drift]);
    scales.iter().map(|scale| (most / scale) as i64).collect()
}

/// A sheet with few histories, so that all of them can be tried.
pub fn tiny(rng: &mut Prng) -> Sound {
    if rng.once_in(2) {
        return tiny_with_long_steps(rng);
    }
    let channels = if rng.once_in(5) { 2 } else { 1 };
    let scales = near_scales(rng, channels);
    let units = rng.pick(&[0, 1, 1, 1, 2]);
    let drift = scales::drift(rng, &scales, units);
    let measures = Measures {
        jumps: jumps(rng, &scales, drift),
        scales,
        rows: rng.between(1, 7) as usize,
        step: rng.pick(&[1, 1, 1, 2, 2, 3]),
        drift,
        requirements: requirements_of(rng),
        operators: rng.below(6),
    };
    build(rng, measures)
}

/// Low ends may lie below the step, and there are samples a step past them. That takes a long span;
/// values that move leave few histories all the same.
fn tiny_with_long_steps(rng: &mut Prng) -> Sound {
    let scales = near_scales(rng, 1);
    let measures = Measures {
        drift: scales::drift(rng, &scales, 1),
        scales,
        rows: rng.between(3, 6) as usize,
        step: rng.pick(&[2, 2, 3]),
        jumps: vec![1],
        requirements: requirements_of(rng),
        operators: 1 + rng.below(3),
    };
    build(rng, measures)
}

fn build(rng: &mut Prng, measures: Measures) -> Sound {
    let times = times(rng, &measures);
    let values = walks(rng, &measures);
    let predicates = predicates(rng, &measures, &values);
    let taste = Taste {
        predicates: predicates.iter().map(|predicate| predicate.number as usize).collect(),
        unit: measures.step as i64,
        reach: (times[times.len() - 1] - times[0]) as i64 + 1,
    };
    let trees = trees(rng, &taste, measures.requirements, measures.operators);
    let rows = times.iter().zip(values).map(|(&time, values)| Row { time, measured: true, values });
    let mut draft = Draft {
        channels: measures.scales.len() as u64,
        scales: measures.scales,
        predicates,
        step: measures.step,
        drift: measures.drift,
        requirements: texts(rng, &trees),
        rows: rows.collect(),
    };
    if rng.once_in(3) {
        add_filled(rng, &mut draft);
    }
    Sound { draft, trees }
}

/// Rising times whose neighbours are at most the step apart.
fn times(rng: &mut Prng, measures: &Measures) -> Vec<u64> {
    let regular = rng.once_in(2);
    let mut time = rng.pick(&[0, 0, 1, 7, 86_399, 1_700_000_000]);
    let mut times = Vec::new();
    for _ in 0..measures.rows {
        times.push(time);
        time += if regular { measures.step } else { rng.between(1, measures.step as i64) as u64 };
    }
    times
}

fn walks(rng: &mut Prng, measures: &Measures) -> Vec<Vec<i64>> {
    let mut values: Vec<i64> = measures.scales.iter().map(|_| rng.between(-9, 9)).collect();
    let mut rows = Vec::new();
    for _ in 0..measures.rows {
        rows.push(values.clone());
        for (value, &jump) in values.iter_mut().zip(&measures.jumps) {
            *value += rng.between(-jump, jump);
        }
    }
    rows
}

/// Predicates of any numbers, by rising number.
fn predicates(rng: &mut Prng, measures: &Measures, values: &[Vec<i64>]) -> Vec<PredicateLine> {
    let count = if rng.once_in(10) { rng.below(17) } else { 1 + rng.below(4) };
    let mut numbers: Vec<u64> = (0..16).collect();
    let mut lines = Vec::new();
    for _ in 0..count {
        let number = numbers.swap_remove(rng.below(numbers.len()));
        let channel = rng.below(measures.scales.len());
        let near = values[rng.below(values.len())][channel];
        let (lo, hi) = ends(rng, near, (measures.drift / measures.scales[channel]) as i64);
        lines.push(PredicateLine { number, channel: channel as u64, lo, hi });
    }
    lines.sort_by_key(|line| line.number);
    lines
}

/// Ends about a drift away from a value, on either side: where verdicts are decided. Here the drift
/// is in the value's own unit.
fn ends(rng: &mut Prng, near: i64, drift: i64) -> (Option<i64>, Option<i64>) {
    let away = |rng: &mut Prng| drift + rng.between(-2, 4);
    let lo = if rng.once_in(3) { near + away(rng) } else { near - away(rng) };
    let hi = if rng.once_in(3) { near - away(rng) } else { near + away(rng) };
    match rng.below(12) {
        0 => (None, None),
        1..=4 => (Some(lo), None),
        5..=8 => (None, Some(hi)),
        _ => (Some(lo.min(hi)), Some(lo.max(hi))),
    }
}

/// Filled rows anywhere, with any figures that the text form allows.
fn add_filled(rng: &mut Prng, draft: &mut Draft) {
    for _ in 0..1 + rng.below(4) {
        let place = rng.below(draft.rows.len() + 1);
        let row = filled(rng, draft.channels);
        draft.rows.insert(place, row);
    }
}

pub fn filled(rng: &mut Prng, channels: u64) -> Row {
    let values = (0..channels).map(|_| figure(rng)).collect();
    let time =
        if rng.once_in(2) { rng.below(40) as u64 } else { rng.word() % (LARGEST_UNSIGNED + 1) };
    Row { time, measured: false, values }
}

fn figure(rng: &mut Prng) -> i64 {
    let largest = LARGEST_SIGNED as i64;
    match rng.below(3) {
        0 => rng.between(-20, 20),
        1 => rng.pick(&[-largest, largest, -LARGEST_VALUE - 1, LARGEST_VALUE + 1, 0]),
        _ => rng.between(-largest, largest),
    }
}

/// Numbers at their limits: nothing may wrap.
fn extreme(rng: &mut Prng, requirements: usize) -> Sound {
    let big = LARGEST_VALUE;
    let values = [-big, -big + 1, -1, 0, 1, big - 1, big];
    let channels = rng.between(1, 3) as u64;
    let scales = scales::scales(rng, channels);
    let drift = LARGEST_DRIFT;
    // With a scale, neighbouring values are equal or just as far apart as the drift allows.
    let bases: Vec<i64> = scales.iter().map(|_| rng.pick(&values)).collect();
    let value = |rng: &mut Prng, channel: usize| match scales[channel] {
        1 => rng.pick(&values),
        scale => {
            let apart = (2 * drift / scale) as i64;
            let inward = if bases[channel] > 0 { -apart } else { apart };
            bases[channel] + rng.pick(&[0, inward])
        }
    };
    let last = rng.between(1, 5);
    let rows = (0..=last).map(|row| Row {
        time: (2_000_000_000 / last * row) as u64,
        measured: true,
        values: (0..scales.len()).map(|channel| value(rng, channel)).collect(),
    });
    let rows: Vec<Row> = rows.collect();
    // A step of a billion joins all but two samples that are two billion apart.
    let rows = if last == 1 { rows[..1].to_vec() } else { rows };
    let predicates: Vec<PredicateLine> = (0..1 + rng.below(4) as u64)
        .map(|number| {
            let channel = rng.below(channels as usize) as u64;
            let (one, other) = (rng.pick(&values), rng.pick(&values));
            let lo = (!rng.once_in(3)).then_some(one.min(other));
            let hi = (!rng.once_in(3)).then_some(one.max(other));
            PredicateLine { number, channel, lo, hi }
        })
        .collect();
    let taste = Taste {
        predicates: (0..predicates.len()).collect(),
        unit: rng.pick(&[1, 500_000_000, 1_000_000_000]),
        reach: 1_000_000_000,
    };
    let operators = rng.below(7);
    let trees = trees(rng, &taste, requirements, operators);
    let requirements = texts(rng, &trees);
    let step = 1_000_000_000;
    let draft = Draft { channels, scales, predicates, step, drift, requirements, rows };
    Sound { draft, trees }
}
