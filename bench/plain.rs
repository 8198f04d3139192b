//! The margin and the verdict in plain Rust, by the algorithm of the proved library: what its speed is compared with.

pub const TOP: i64 = 4_000_000_000_000;
pub const NO_END: u64 = 4_294_967_295;
/// A window's ends go up to this.
pub const LONGEST: u64 = 1_000_000_000;

#[derive(Clone, Copy)]
pub struct Node {
    pub kind: u64,
    pub left: usize,
    pub right: usize,
    pub lo: u64,
    pub hi: u64,
    /// 1 where the low end is excluded, else 0.
    pub open_lo: u64,
    /// 1 where the high end is excluded, else 0.
    pub open_hi: u64,
}

/// A node whose window counts both its ends; one without a window has 0 for both.
pub const fn node(kind: u64, left: usize, right: usize, lo: u64, hi: u64) -> Node {
    Node { kind, left, right, lo, hi, open_lo: 0, open_hi: 0 }
}

#[derive(Clone, Copy)]
pub enum Range {
    Unset,
    Free,
    AtLeast(i64),
    AtMost(i64),
    Between(i64, i64),
}

#[derive(Clone, Copy)]
pub struct Predicate {
    pub channel: usize,
    pub range: Range,
}

fn clearance(a: i64, b: i64) -> i64 {
    if a <= b {
        b - a + 1
    } else {
        b - a
    }
}

/// In the scaled unit; free alone stays at TOP.
pub fn distance(range: Range, scale: i64, v: i64) -> i64 {
    match range {
        Range::Unset | Range::Free => TOP,
        Range::AtLeast(lo) => scale * clearance(lo, v),
        Range::AtMost(hi) => scale * clearance(v, hi),
        Range::Between(lo, hi) => scale * clearance(lo, v).min(clearance(v, hi)),
    }
}

fn edge(times: &[u64], i: usize, at: usize, stop: Option<u64>) -> usize {
    let Some(apart) = stop else { return times.len() };
    let start = times[i];
    let mut j = at.max(i);
    while j < times.len() && times[j] - start < apart {
        j += 1;
    }
    j
}

pub fn extreme(largest: bool, a: i64, b: i64) -> i64 {
    if largest {
        a.max(b)
    } else {
        a.min(b)
    }
}

pub fn nothing(largest: bool) -> i64 {
    if largest {
        -TOP
    } else {
        TOP
    }
}

/// The extreme of a value and of those at some places.
fn joined(row: &[i64], largest: bool, value: i64) -> i64 {
    row.iter().fold(value, |best, &v| extreme(largest, best, v))
}

/// The extremum over a source row's places from `low` up to, not including, `high`, which both only move forward.
/// Cell j of the node's own row, `low` ≤ j < `mid`, holds the extremum over j up to `mid`, and `tail` is that over `mid` up to `high`.
struct Slide {
    mid: usize,
    high: usize,
    tail: i64,
    value: i64,
}

/// Own cells as the extrema from each of their places up to `high`; the one from `low`.
fn fill_back(source: &[i64], own: &mut [i64], largest: bool, low: usize, high: usize) -> i64 {
    // an empty window may end before it starts
    let places = low..high.max(low);
    let mut run = nothing(largest);
    for (cell, &v) in own[places.clone()].iter_mut().zip(&source[places]).rev() {
        run = extreme(largest, run, v);
        *cell = run;
    }
    run
}

impl Slide {
    fn new(largest: bool) -> Slide {
        Slide { mid: 0, high: 0, tail: nothing(largest), value: nothing(largest) }
    }

    fn advance(&mut self, source: &[i64], own: &mut [i64], largest: bool, low: usize, high: usize) {
        if low < self.mid {
            self.tail = joined(&source[self.high..high], largest, self.tail);
            self.value = extreme(largest, own[low], self.tail);
        } else {
            self.value = fill_back(source, own, largest, low, high);
            (self.mid, self.tail) = (high, nothing(largest));
        }
        self.high = high;
    }
}

/// Until or release, `run` being left's extremum up to `first`.
fn bound_at(l: &[i64], r: &[i64], largest: bool, mut run: i64, first: usize, end: usize) -> i64 {
    let mut best = nothing(largest);
    if end <= first {
        return best;
    }
    for (&r, &l) in r[first..end].iter().zip(&l[first..end]) {
        best = extreme(largest, best, extreme(!largest, r, run));
        run = extreme(!largest, run, l);
        if if largest { run <= best } else { best <= run } {
            return best;
        }
    }
    best
}

/// From how many seconds on, and before how many.
type Window = (u64, Option<u64>);

/// An operator with a window. Eventually and always have no left row.
struct Temporal {
    largest: bool,
    window: Window,
    left: Option<usize>,
    right: usize,
}

/// Fills the own row of an operator with a window from the rows before it.
type TemporalRow = fn(before: &[i64], own: &mut [i64], times: &[u64], operator: Temporal);

fn temporal_row(before: &[i64], own: &mut [i64], times: &[u64], operator: Temporal) {
    let Temporal { largest, window: (from, stop), left, right } = operator;
    let row = |q: usize| &before[q * times.len()..(q + 1) * times.len()];
    let r = row(right);
    // until and release slide over left, from each place up to its window
    let (source, of_source) = left.map_or((r, largest), |l| (row(l), !largest));
    let mut slide = Slide::new(of_source);
    let (mut first, mut end) = (0, 0);
    for i in 0..times.len() {
        first = edge(times, i, first, Some(from));
        end = edge(times, i, end, stop);
        let (low, high) = if left.is_some() { (i, first) } else { (first, end) };
        slide.advance(source, own, of_source, low, high);
        own[i] = if left.is_some() {
            bound_at(source, r, largest, slide.value, first, end)
        } else {
            slide.value
        };
    }
}

/// The plain loop, which is not the library's algorithm: each extremum is taken afresh for each i.
fn temporal_row_afresh(before: &[i64], own: &mut [i64], times: &[u64], operator: Temporal) {
    let Temporal { largest, window: (from, stop), left, right } = operator;
    let row = |q: usize| &before[q * times.len()..(q + 1) * times.len()];
    let r = row(right);
    let (mut first, mut end) = (0, 0);
    for i in 0..times.len() {
        first = edge(times, i, first, Some(from));
        end = edge(times, i, end, stop);
        own[i] = match left.map(row) {
            Some(l) => bound_at(
                l,
                r,
                largest,
                joined(&l[i..first], !largest, nothing(!largest)),
                first,
                end,
            ),
            None if first < end => joined(&r[first..end], largest, nothing(largest)),
            None => nothing(largest),
        };
    }
}

fn is_timed(kind: u64) -> bool {
    (5..=8).contains(&kind)
}

/// Whether a window is within its limits and something is left of it. Nothing is added to an end that may be too large.
fn window_obeys(node: &Node) -> bool {
    let Node { lo, hi, open_lo, open_hi, .. } = *node;
    let in_limits = lo <= LONGEST && open_lo <= 1 && open_hi <= 1;
    match hi {
        NO_END => in_limits && open_hi == 0,
        _ => in_limits && hi <= LONGEST && lo + open_lo + open_hi <= hi,
    }
}

/// Whether a node may stand at place k of a table.
pub fn obeys(node: &Node, k: usize) -> bool {
    let Node { kind, left, right, lo, hi, open_lo, open_hi } = *node;
    let left = match kind {
        1 => left <= 15,
        2..=8 => left < k,
        _ => left == 0,
    };
    let right = if (3..=6).contains(&kind) { right < k } else { right == 0 };
    let window =
        if is_timed(kind) { window_obeys(node) } else { [lo, hi, open_lo, open_hi] == [0; 4] };
    kind <= 8 && left && right && window
}

fn accepted(nodes: &[Node], card: &Card) -> bool {
    let Card { predicates, channels, scales, times, values } = *card;
    let table = nodes.iter().enumerate().all(|(k, n)| {
        obeys(n, k) && (n.kind != 1 || !matches!(predicates[n.left].range, Range::Unset))
    });
    let fits = |v: &i64| (-1_000_000_000..=1_000_000_000).contains(v);
    let named = predicates.iter().all(|p| {
        let ends = match p.range {
            Range::Unset | Range::Free => true,
            Range::AtLeast(e) | Range::AtMost(e) => fits(&e),
            Range::Between(lo, hi) => fits(&lo) && fits(&hi) && lo <= hi,
        };
        (matches!(p.range, Range::Unset) || p.channel < channels) && ends
    });
    table
        && (1..=64).contains(&nodes.len())
        && (1..=8).contains(&channels)
        && named
        && scales.iter().all(|scale| (1..=1_000).contains(scale))
        && scales.len() == channels
        && (1..=4096).contains(&times.len())
        && values.len() == times.len() * channels
        && times.windows(2).all(|t| t[0] < t[1])
        && times.iter().all(|&t| t <= 2_000_000_000)
        && values.iter().all(fits)
}

/// What rows are filled from.
pub struct Card<'a> {
    pub predicates: &'a [Predicate; 16],
    pub channels: usize,
    pub scales: &'a [u64],
    pub times: &'a [u64],
    pub values: &'a [i64],
}

/// How a node's row is filled: as the node or its negation, with which window, from which rows.
struct Reading {
    affirmed: bool,
    window: Window,
    left: usize,
    right: usize,
}

/// The row of any kind but "not", or of its negation, from the rows before it.
fn node_row(
    card: &Card,
    node: &Node,
    reading: Reading,
    temporal: TemporalRow,
    before: &[i64],
    own: &mut [i64],
) {
    let Reading { affirmed, window, left, right } = reading;
    let n = card.times.len();
    let row = |q: usize| &before[q * n..q * n + n];
    let largest = affirmed == matches!(node.kind, 4 | 5 | 7);
    match node.kind {
        0 => own.fill(if affirmed { TOP } else { -TOP }),
        1 => {
            let p = card.predicates[node.left];
            let scale = card.scales[p.channel] as i64;
            for i in 0..n {
                let d = distance(p.range, scale, card.values[i * card.channels + p.channel]);
                own[i] = if affirmed { d } else { -d };
            }
        }
        2 => own.copy_from_slice(row(left)),
        3 | 4 => {
            let (l, r) = (row(left), row(right));
            for i in 0..n {
                own[i] = extreme(largest, l[i], r[i]);
            }
        }
        5 | 6 => {
            temporal(before, own, card.times, Temporal { largest, window, left: Some(left), right })
        }
        _ => {
            temporal(before, own, card.times, Temporal { largest, window, left: None, right: left })
        }
    }
}

/// The same window with both ends counted: an excluded low end reads as lo + 1, an excluded high end as hi - 1.
pub fn closed(node: &Node) -> Node {
    let Node { lo, hi, open_lo, open_hi, .. } = *node;
    Node { lo: lo + open_lo, hi: hi - open_hi, open_lo: 0, open_hi: 0, ..*node }
}

/// The same window with its ends excluded, each one second further out. An end at its limit stays as it is.
pub fn opened(node: &Node) -> Node {
    let Node { kind, lo, hi, .. } = *node;
    let open_lo = u64::from(is_timed(kind) && lo > 0);
    let open_hi = u64::from(is_timed(kind) && hi < LONGEST);
    Node { lo: lo - open_lo, hi: hi + open_hi, open_lo, open_hi, ..*node }
}

fn window(node: &Node) -> Window {
    let Node { lo, hi, .. } = closed(node);
    (lo, if hi == NO_END { None } else { Some(hi + 1) })
}

/// Contraction keeps a start of 0; a stop of 0 leaves no place.
fn strengthened(contracts: bool, step: u64, (from, stop): Window) -> Window {
    if contracts {
        (if from == 0 { 0 } else { from + step }, stop.map(|e| e.saturating_sub(step)))
    } else {
        (from.saturating_sub(step), stop.map(|e| e + step))
    }
}

pub fn margin(nodes: &[Node], card: &Card, work: &mut [i64]) -> Option<i64> {
    margin_by(temporal_row, nodes, card, work)
}

/// By the plain loop.
pub fn margin_afresh(nodes: &[Node], card: &Card, work: &mut [i64]) -> Option<i64> {
    margin_by(temporal_row_afresh, nodes, card, work)
}

fn margin_by(temporal: TemporalRow, nodes: &[Node], card: &Card, work: &mut [i64]) -> Option<i64> {
    let n = card.times.len();
    if !accepted(nodes, card) || work.len() < nodes.len() * n {
        return None;
    }
    for (k, node) in nodes.iter().enumerate() {
        let (before, own) = work.split_at_mut(k * n);
        let own = &mut own[..n];
        if node.kind == 2 {
            own.iter_mut()
                .zip(&before[node.left * n..node.left * n + n])
                .for_each(|(o, &v)| *o = -v);
        } else {
            let reading = Reading {
                affirmed: true,
                window: window(node),
                left: node.left,
                right: node.right,
            };
            node_row(card, node, reading, temporal, before, own);
        }
    }
    Some(work[(nodes.len() - 1) * n])
}

fn sampled(card: &Card, step: u64, drift: u64) -> bool {
    let near = |a: i64, b: i64, scale: u64| scale * (b - a).unsigned_abs() <= 2 * drift;
    (1..=1_000_000_000).contains(&step)
        && drift <= 1_000_000_000
        && card.times.windows(2).all(|t| t[1] - t[0] <= step)
        && card
            .values
            .iter()
            .zip(&card.values[card.channels..])
            .zip(card.scales.iter().cycle())
            .all(|((&a, &b), &scale)| near(a, b, scale))
}

/// Hold and fail.
pub fn verdict(
    nodes: &[Node],
    card: &Card,
    step: u64,
    drift: u64,
    work: &mut [i64],
) -> Option<(i64, i64)> {
    verdict_by(temporal_row, nodes, card, (step, drift), work)
}

/// Hold and fail by the plain loop.
pub fn verdict_afresh(
    nodes: &[Node],
    card: &Card,
    step: u64,
    drift: u64,
    work: &mut [i64],
) -> Option<(i64, i64)> {
    verdict_by(temporal_row_afresh, nodes, card, (step, drift), work)
}

fn verdict_by(
    temporal: TemporalRow,
    nodes: &[Node],
    card: &Card,
    (step, drift): (u64, u64),
    work: &mut [i64],
) -> Option<(i64, i64)> {
    let n = card.times.len();
    if !accepted(nodes, card) || work.len() < 2 * nodes.len() * n || !sampled(card, step, drift) {
        return None;
    }
    for row in 0..2 * nodes.len() {
        let (node, affirmed) = (&nodes[row / 2], row % 2 == 0);
        let (before, own) = work.split_at_mut(row * n);
        let window = strengthened(affirmed == matches!(node.kind, 5 | 7), step, window(node));
        let left = 2 * node.left + usize::from(affirmed == (node.kind == 2));
        let reading = Reading { affirmed, window, left, right: 2 * node.right + row % 2 };
        node_row(card, node, reading, temporal, before, &mut own[..n]);
    }
    let root = 2 * (nodes.len() - 1) * n;
    Some((work[root], work[root + n]))
}
