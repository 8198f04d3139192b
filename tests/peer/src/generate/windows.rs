//! Calls with windows of every shape, over rows enough for both edges of a window to pass many
//! places.

use super::calls::{Call, Foretold};
use super::marks::{marked, opened, LARGEST};
use super::prng::{case_seed, Prng};
use super::scales;
use crate::limits::MOST_SAMPLES;
use crate::predicate::{Predicate, Range, UNSET};
use crate::recording::Recording;
use crate::table::{kind, Node, Table};
use crate::window::Window;

/// Where a window starts, seen from a sample.
#[derive(Clone, Copy, PartialEq)]
enum Start {
    Now,
    /// Within a step, mostly at the next sample.
    Next,
    Late,
    /// Where there is no sample any more, not even from the first one.
    Past,
}

#[derive(Clone, Copy, PartialEq)]
enum End {
    Missing,
    /// The window is one instant.
    Start,
    /// So near to the start that contraction leaves nothing.
    Near,
    /// Just so far from the start that contraction leaves one instant.
    Just,
    Inside,
    /// Past the recording's end, also once contracted.
    Past,
}

/// Every start with every end that can follow it.
fn shapes() -> Vec<(Start, End)> {
    let starts = [Start::Now, Start::Next, Start::Late, Start::Past];
    let ends = [End::Missing, End::Start, End::Near, End::Just, End::Inside, End::Past];
    let pairs = starts.iter().flat_map(|&start| ends.map(|end| (start, end)));
    pairs.filter(|&shape| shape != (Start::Past, End::Inside)).collect()
}

/// How far apart neighbouring rows are.
#[derive(Clone, Copy)]
pub enum Spacing {
    Second,
    UpToStep,
    /// Sometimes more than a step, which the verdict refuses.
    Gaps,
}

pub const SPACINGS: [Spacing; 3] = [Spacing::Second, Spacing::UpToStep, Spacing::Gaps];

impl Spacing {
    pub fn name(self) -> &'static str {
        match self {
            Spacing::Second => "one-second rows",
            Spacing::UpToStep => "rows up to a step apart",
            Spacing::Gaps => "rows with gaps",
        }
    }
}

/// How the values of a channel follow one another.
#[derive(Clone, Copy)]
pub enum Values {
    Equal,
    Rising,
    Falling,
    Random,
    SawTooth,
}

pub const VALUES: [Values; 5] =
    [Values::Equal, Values::Rising, Values::Falling, Values::Random, Values::SawTooth];

impl Values {
    pub fn name(self) -> &'static str {
        match self {
            Values::Equal => "equal values",
            Values::Rising => "rising values",
            Values::Falling => "falling values",
            Values::Random => "random values",
            Values::SawTooth => "saw-tooth values",
        }
    }
}

/// A call, and what its recording was drawn as.
pub struct Shaped {
    pub foretold: Foretold,
    pub values: Values,
    pub spacing: Spacing,
}

/// A call with 40 to 400 rows, mostly few, and one to three windows.
pub fn windows(rng: &mut Prng) -> Shaped {
    let rows = 40 + rng.below(361).min(rng.below(361));
    let (values, spacing) = (rng.pick(&VALUES), rng.pick(&SPACINGS));
    let mut call = without_operators(rng, rows, values, spacing);
    let reach = Reach::whole(&call);
    for _ in 0..1 + rng.below(3) {
        let (kind, shape) = (kind::UNTIL + rng.below(4) as u64, rng.pick(&shapes()));
        let window = reach.window(rng, shape);
        let window = marked(rng, window);
        append(rng, &mut call, kind, window);
    }
    shaped(rng, call, values, spacing)
}

/// Until or release with these windows costs most by the literal definition, seconds for each row
/// of cells, so a long call has one of them: three rows. Where the verdict is refused each takes one
/// row, and the call has an until and a release.
const COSTLY: [(&[u64], Window, Spacing); 6] = [
    (&[kind::UNTIL], Window::closed(0, None), Spacing::Second),
    (&[kind::UNTIL], Window::closed(0, Some(LARGEST)), Spacing::UpToStep),
    (&[kind::UNTIL, kind::RELEASE], Window::closed(1, None), Spacing::Gaps),
    (&[kind::UNTIL, kind::RELEASE], Window::closed(1, Some(LARGEST)), Spacing::Gaps),
    (&[kind::UNTIL], Window::closed(1_800, None), Spacing::Second),
    (&[kind::RELEASE], Window::closed(1_800, Some(3_600)), Spacing::Second),
];

/// So many calls in turn have every shape.
pub const LONG_CASES: u64 = COSTLY.len() as u64;

/// The call of that number with 4,096 rows: eventually or always with every shape, until or release
/// with every shape that costs little, and a window that costs much.
pub fn long(number: u64) -> Shaped {
    let rng = &mut Prng::new(case_seed(number, 0));
    let case = (number % LONG_CASES) as usize;
    let (costly_kinds, costly_window, spacing) = COSTLY[case];
    let values = VALUES[(number / LONG_CASES + number % LONG_CASES) as usize % VALUES.len()];
    let mut call = without_operators(rng, MOST_SAMPLES as usize, values, spacing);
    let (whole, short) = (Reach::whole(&call), Reach::short(&call));
    for (place, shape) in shapes().into_iter().enumerate() {
        let turn = ((place + case) % 2) as u64;
        // Starts take turns at a low mark, ends at a high one.
        let marked = |window| opened(window, shape.0 as usize % 2 == 1, shape.1 as usize % 2 == 1);
        let window = marked(whole.window(rng, shape));
        append(rng, &mut call, kind::EVENTUALLY + turn, window);
        let early = matches!(shape.0, Start::Now | Start::Next);
        if !(early && matches!(shape.1, End::Missing | End::Past)) {
            let window = marked(short.window(rng, shape));
            append(rng, &mut call, kind::UNTIL + turn, window);
        }
    }
    for kind in [kind::UNTIL, kind::EVENTUALLY] {
        // From 0 without 0: a low end of 1, as it is read.
        let window = Window::closed(1, Some(1 + 3 * call.step as i64));
        append(rng, &mut call, kind, opened(window, true, false));
    }
    for &kind in costly_kinds {
        append(rng, &mut call, kind, costly_window);
    }
    shaped(rng, call, values, spacing)
}

fn shaped(rng: &mut Prng, mut call: Call, values: Values, spacing: Spacing) -> Shaped {
    let cells = 2 * call.table.count() * call.recording.rows() + rng.below(3);
    call.work = (0..cells).map(|_| rng.word() as i64).collect();
    let verdict = if matches!(spacing, Spacing::Gaps) { 10 } else { 0 };
    Shaped { foretold: Foretold { call, margin: 0, verdict }, values, spacing }
}

/// Two predicates, each on its channel, over rows that the verdict refuses for gaps alone.
fn without_operators(rng: &mut Prng, rows: usize, values: Values, spacing: Spacing) -> Call {
    let step = match spacing {
        Spacing::Second => rng.pick(&[1, 1, 2, 5]),
        Spacing::UpToStep => rng.pick(&[2, 3, 10]),
        Spacing::Gaps => rng.pick(&[1, 2, 3]),
    };
    let units = rng.pick(&[1, 3, 50, 100_000]);
    let scales = scales::scales(rng, 2);
    let drift = scales::drift(rng, &scales, units as u64);
    let channels = [walk(rng, rows, values, units), walk(rng, rows, values, units)];
    let mut predicates = [UNSET; 16];
    for (channel, values) in channels.iter().enumerate() {
        predicates[channel] = Predicate { channel: channel as u64, range: range(rng, values) };
    }
    let recording = Recording {
        channels: 2,
        scales,
        times: times(rng, rows, spacing, step),
        values: (0..rows).flat_map(|row| [channels[0][row], channels[1][row]]).collect(),
    };
    let leaf = |left| Node { kind: kind::PREDICATE, left, ..Node::default() };
    let table = Table { nodes: vec![leaf(0), leaf(1)] };
    Call { table, predicates, recording, step: step as u64, drift, work: Vec::new() }
}

fn times(rng: &mut Prng, rows: usize, spacing: Spacing, step: i64) -> Vec<u64> {
    let mut times = vec![rng.below(9) as u64];
    for row in 1..rows {
        let apart = match spacing {
            Spacing::Second => 1,
            // One gap is certain.
            Spacing::Gaps if row == rows / 2 || rng.once_in(12) => step + rng.between(1, 30),
            Spacing::UpToStep | Spacing::Gaps => rng.between(1, step),
        };
        times.push(times[row - 1] + apart as u64);
    }
    times
}

/// The values of one channel. None jumps by more than twice the drift, in the values' own unit.
fn walk(rng: &mut Prng, rows: usize, values: Values, drift: i64) -> Vec<i64> {
    let start = rng.between(-drift, drift);
    let period = 2 + rng.below(rows / 2) as i64;
    let sign = rng.pick(&[1, -1]);
    let mut total = 0;
    let mut raised = |rng: &mut Prng| {
        total += rng.between(0, 2 * drift);
        total
    };
    let value = |row: i64| match values {
        Values::Equal => start,
        Values::Rising => start + raised(rng),
        Values::Falling => start - raised(rng),
        Values::Random => rng.between(-drift, drift),
        Values::SawTooth => sign * (2 * drift * (row % period) / (period - 1) - drift),
    };
    (0..rows as i64).map(value).collect()
}

/// A range with ends about the channel's values, so that margins have both signs.
fn range(rng: &mut Prng, values: &[i64]) -> Range {
    let near = |rng: &mut Prng| values[rng.below(values.len())] + rng.between(-3, 3);
    let (one, other) = (near(rng), near(rng));
    match rng.below(12) {
        0 => Range::Free,
        1..=4 => Range::AtLeast(one),
        5..=8 => Range::AtMost(one),
        _ => Range::Between(one.min(other), one.max(other)),
    }
}

/// Operands are mostly the predicates, sometimes any node before.
fn append(rng: &mut Prng, call: &mut Call, kind: u64, window: Window) {
    let nodes = &mut call.table.nodes;
    let count = nodes.len();
    let child = |rng: &mut Prng| {
        let among = if rng.once_in(3) { count } else { 2 };
        rng.below(among) as u64
    };
    let left = child(rng);
    let right = if matches!(kind, kind::UNTIL | kind::RELEASE) { child(rng) } else { 0 };
    nodes.push(Node { kind, left, right, ..Node::default() }.with(window));
}

/// Where windows start and end as they are read, in seconds.
struct Reach {
    /// From the first sample to the last.
    span: i64,
    step: i64,
    /// Late windows start from here on.
    late: i64,
    /// A window is at most so much longer than contraction takes from it.
    widest: i64,
}

impl Reach {
    fn whole(call: &Call) -> Reach {
        let recording = &call.recording;
        let span = recording.time(recording.rows() - 1) - recording.time(0);
        let step = call.step as i64;
        Reach { span, step, late: step + 1, widest: span }
    }

    /// Few places are between a sample and a window's last one: late windows start near the end.
    fn short(call: &Call) -> Reach {
        let whole = Reach::whole(call);
        Reach { late: whole.span - 200, widest: 60, ..whole }
    }

    fn window(&self, rng: &mut Prng, (start, end): (Start, End)) -> Window {
        let mut between = |least, most| rng.between(least, most);
        let &Reach { span, step, late, widest } = self;
        let lo = match start {
            Start::Now => 0,
            Start::Next => between(1, step),
            Start::Late => between(late, span - 2 * step),
            Start::Past if between(0, 3) == 0 => LARGEST - 2 * step - 9,
            Start::Past => span + between(1, 9),
        };
        // What contraction takes: of a window that starts now the end alone moves.
        let taken = if lo == 0 { step } else { 2 * step };
        let hi = match end {
            End::Missing => return Window::closed(lo, None),
            End::Start => lo,
            End::Near => lo + between(0, taken - 1),
            End::Just => lo + taken,
            End::Inside => {
                let widest = widest.min(span - taken - lo);
                let most = between(0, widest);
                // Mostly narrow, so that the edges move past each other's old places often.
                lo + taken + between(0, most)
            }
            End::Past => (lo + taken).max(span + step) + between(1, 9),
        };
        Window::closed(lo, Some(hi))
    }
}
