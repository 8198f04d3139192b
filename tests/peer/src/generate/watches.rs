//! Watches: what they are made of, and lists of rows that are offered to them, with refused ones
//! between the others.

use super::calls::{self, break_predicate, break_table, leaf, over, Call};
use super::prng::Prng;
use super::requirements::Taste;
use super::scales::BAD;
use super::tables::children;
use crate::limits::{LARGEST_VALUE, LAST_TIME};
use crate::predicate::Predicates;
use crate::recording::Recording;
use crate::refusal::{first_of, last_to_first};
use crate::table::{kind, Node, Table};

/// A watch, the rows that are offered to it, and what must refuse them.
#[derive(Clone, Debug)]
pub struct Watching {
    pub table: Table,
    pub predicates: Predicates,
    /// One for each channel.
    pub scales: Vec<u64>,
    /// What refuses the making: 3, 4, 13, 16, or 0 for nothing.
    pub number: u64,
    pub offers: Vec<Offer>,
}

/// A row that is offered.
#[derive(Clone, Debug)]
pub struct Offer {
    pub time: u64,
    pub values: Vec<i64>,
    /// What refuses it, where nothing refused the making: 5, 6, 7, or 0 for nothing.
    pub number: u64,
}

pub fn watching(rng: &mut Prng) -> Watching {
    let mut call = calls::sound(rng);
    if rng.once_in(8) {
        to_the_last_time(&mut call.recording);
    }
    let offers = offers(rng, &call.recording);
    let taste = taste(&call);
    // Once in six the table is any table, in which operators stand inside one another or not.
    if !rng.once_in(6) {
        call.table = flat_table(rng, &taste);
    }
    let faults: Vec<u64> = if rng.once_in(3) {
        (0..1 + rng.below(2)).map(|_| rng.pick(&[3, 4, 13, 16, 16])).collect()
    } else {
        Vec::new()
    };
    // A fault may undo one that counts later, and wins anyway.
    for &fault in &last_to_first(&faults) {
        put(rng, &taste, &mut call, fault);
    }
    let mut numbers = faults;
    numbers.extend(nested(&call.table).then_some(16));
    let Call { table, predicates, recording, .. } = call;
    Watching { table, predicates, scales: recording.scales, number: first_of(&numbers), offers }
}

fn taste(call: &Call) -> Taste {
    let times = &call.recording.times;
    Taste {
        predicates: (0..16).filter(|&number| call.predicates[number].is_set()).collect(),
        unit: call.step as i64,
        reach: (times[times.len() - 1] - times[0]) as i64 + 1,
    }
}

/// The last row comes at the last time there is.
fn to_the_last_time(recording: &mut Recording) {
    let later = LAST_TIME - recording.times[recording.rows() - 1];
    recording.times.iter_mut().for_each(|time| *time += later);
}

fn put(rng: &mut Prng, taste: &Taste, call: &mut Call, fault: u64) {
    match fault {
        3 => break_table(rng, call),
        4 if rng.once_in(2) => {
            let count = rng.pick(&[0, 9, 9, 200]);
            call.recording.scales.resize(count, rng.pick(&[1, 10, 1_000]));
        }
        4 => break_predicate(rng, call),
        13 => {
            let place = rng.below(call.recording.scales.len());
            call.recording.scales[place] = rng.pick(&BAD);
        }
        _ => nest(rng, taste, &mut call.table),
    }
}

pub fn is_temporal(node: &Node) -> bool {
    (kind::UNTIL..=kind::ALWAYS).contains(&node.kind)
}

/// The nodes of the tree that stands at this child, each once. Numbers that name no earlier node are
/// left out.
pub fn below(table: &Table, child: u64) -> Vec<usize> {
    let mut found = vec![child as usize];
    let mut next = 0;
    while next < found.len() {
        let k = found[next];
        for child in children(&table.nodes[k]) {
            if child < k as u64 && !found.contains(&(child as usize)) {
                found.push(child as usize);
            }
        }
        next += 1;
    }
    found
}

/// Whether a temporal operator stands inside another: by walking down from each.
pub fn nested(table: &Table) -> bool {
    table.nodes.iter().enumerate().any(|(k, node)| {
        let inner = children(node).into_iter().filter(|child| *child < k as u64);
        is_temporal(node)
            && inner
                .flat_map(|child| below(table, child))
                .any(|inside| is_temporal(&table.nodes[inside]))
    })
}

/// One of these, mostly a late one.
fn late(rng: &mut Prng, among: &[u64]) -> u64 {
    let back = 1 + rng.below(4);
    among[among.len() - 1 - rng.below(among.len().min(back))]
}

/// A table in which no temporal operator stands inside another. Children are any earlier nodes that
/// allow it, so that many are shared, inside and outside such an operator. Mostly the root reaches
/// nearly all: nodes that nothing uses are joined above.
fn flat_table(rng: &mut Prng, taste: &Taste) -> Table {
    let count = if rng.once_in(15) { 64 } else { 1 + rng.below(14) };
    let joins = if rng.once_in(4) { 0 } else { count / 3 };
    let mut table = Table::default();
    for k in 0..count {
        let node = if k == 0 || k < count - joins && rng.once_in(4) {
            leaf(rng, taste)
        } else {
            flat_operator(rng, taste, &table, k >= count - joins)
        };
        table.nodes.push(node);
    }
    table
}

/// An operator over nodes of the table; one that joins is over nodes that nothing uses, if there are.
fn flat_operator(rng: &mut Prng, taste: &Taste, table: &Table, joins: bool) -> Node {
    let all: Vec<u64> = (0..table.count() as u64).collect();
    let plain = |k: &u64| !below(table, *k).iter().any(|&inner| is_temporal(&table.nodes[inner]));
    let used = |k: &u64| table.nodes.iter().any(|node| children(node).contains(k));
    let unused: Vec<u64> = all.iter().copied().filter(|k| !used(k)).collect();
    if joins && unused.len() > 1 {
        let (left, right) = (unused[0], unused[unused.len() - 1]);
        let kind = rng.pick(&[kind::AND, kind::OR]);
        return over(rng, taste, kind, left, right);
    }
    let kind = rng.pick(&KINDS);
    let among: Vec<u64> =
        if kind >= kind::UNTIL { all.into_iter().filter(plain).collect() } else { all };
    let (left, right) = (late(rng, &among), late(rng, &among));
    over(rng, taste, kind, left, right)
}

/// What such a table is made of.
const KINDS: [u64; 11] = [
    kind::NOT,
    kind::AND,
    kind::OR,
    kind::UNTIL,
    kind::UNTIL,
    kind::RELEASE,
    kind::RELEASE,
    kind::EVENTUALLY,
    kind::EVENTUALLY,
    kind::ALWAYS,
    kind::ALWAYS,
];

const TEMPORAL: [u64; 4] = [kind::UNTIL, kind::RELEASE, kind::EVENTUALLY, kind::ALWAYS];

/// Puts a temporal operator inside another: at once, or under some of not, and, or; on either side;
/// where the root reaches it, or not.
fn nest(rng: &mut Prng, taste: &Taste, table: &mut Table) {
    table.nodes.truncate(50);
    let old_root = table.nodes[table.count() - 1];
    // Mostly over the first node, a leaf, so that nothing but this stands inside another.
    let any = rng.below(table.count()) as u64;
    let (inner, operand) = (rng.pick(&TEMPORAL), rng.pick(&[0, 0, any]));
    let mut top = append(rng, taste, table, inner, operand);
    for _ in 0..rng.pick(&[0, 0, 1, 1, 2, 4]) {
        let kind = rng.pick(&[kind::NOT, kind::AND, kind::OR]);
        top = append(rng, taste, table, kind, top);
    }
    let outer = rng.pick(&TEMPORAL);
    top = append(rng, taste, table, outer, top);
    if rng.once_in(2) {
        table.nodes.push(old_root);
    } else {
        for _ in 0..rng.below(3) {
            let kind = rng.pick(&[kind::NOT, kind::AND, kind::OR]);
            top = append(rng, taste, table, kind, top);
        }
    }
}

/// One node more over this one, which stands on either side of the first node: its place.
fn append(rng: &mut Prng, taste: &Taste, table: &mut Table, kind: u64, child: u64) -> u64 {
    let unary = matches!(kind, kind::NOT | kind::EVENTUALLY | kind::ALWAYS);
    let (left, right) = if unary || rng.once_in(2) { (child, 0) } else { (0, child) };
    let node = over(rng, taste, kind, left, right);
    table.nodes.push(node);
    table.count() as u64 - 1
}

/// The recording's rows in order, and before, between and behind them rows that are refused.
fn offers(rng: &mut Prng, recording: &Recording) -> Vec<Offer> {
    let mut offers = Vec::new();
    let mut last = None;
    for (time, values) in recording.times.iter().zip(recording.values.chunks(channels(recording))) {
        while rng.once_in(3) {
            offers.push(refused(rng, last, *time, values));
        }
        offers.push(Offer { time: *time, values: values.to_vec(), number: 0 });
        last = Some(*time);
        while rng.once_in(8) {
            offers.push(refused(rng, last, *time + 1, values));
        }
    }
    offers
}

fn channels(recording: &Recording) -> usize {
    recording.channels as usize
}

/// A row that one or two of 5, 6 and 7 refuse. If it were taken it would tell: where its values are
/// not at fault, they are often far off; where its time is not, that is often past the next row's.
fn refused(rng: &mut Prng, last: Option<u64>, next: u64, values: &[i64]) -> Offer {
    let faults: Vec<u64> = (0..1 + rng.below(2)).map(|_| rng.pick(&[5, 6, 7])).collect();
    let mut values: Vec<i64> = match rng.below(3) {
        0 => values.to_vec(),
        1 => vec![rng.pick(&[-LARGEST_VALUE, LARGEST_VALUE]); values.len()],
        _ => values.iter().map(|value| value + rng.between(-9, 9)).collect(),
    };
    values.iter_mut().for_each(|value| *value = (*value).clamp(-LARGEST_VALUE, LARGEST_VALUE));
    let mut time = next + rng.below(20) as u64;
    if faults.contains(&6) {
        time = bad_time(rng, last);
    }
    if faults.contains(&7) {
        let place = rng.below(values.len());
        values[place] =
            rng.pick(&[LARGEST_VALUE + 1, -LARGEST_VALUE - 1, i64::MAX, i64::MIN, 1 << 32]);
    }
    if faults.contains(&5) {
        let count = values.len();
        values.resize(rng.pick(&[0, count - 1, count + 1, count + 1, count + 8]), 0);
    }
    // Past the last time that a row may have.
    let late = (time > LAST_TIME).then_some(6);
    Offer { time, values, number: first_of(&[faults, late.into_iter().collect()].concat()) }
}

/// The last one's time, an earlier one, or one past the limit; where no row was accepted, only that.
fn bad_time(rng: &mut Prng, last: Option<u64>) -> u64 {
    match last {
        Some(last) if rng.once_in(3) => last,
        Some(last) if rng.once_in(2) => last - rng.below(last.min(20) as usize + 1) as u64,
        _ => rng.pick(&[LAST_TIME + 1, LAST_TIME + 1, 1 << 32, u64::MAX]),
    }
}
