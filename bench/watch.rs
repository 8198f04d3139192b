//! Times the proved watch beside plain Rust of the same algorithm, and prints the ratios. Both must
//! give the numbers and margins that are due; otherwise it ends with status 1.

#[path = "../rust/src/names.rs"]
#[allow(dead_code)]
mod names;

mod flat;
#[allow(dead_code)]
mod plain;
#[allow(dead_code)]
mod plain_sheets;
mod plain_watch;
mod timing;

use flat::{flat_nodes, flat_predicates};
use names::{Making, WATCH_CELLS, WATCH_NUMBERS};
use plain::{opened, Card, Node, Predicate, Range};
use std::fmt::Debug;
use std::hint::black_box;
use std::process::exit;
use std::time::Instant;
use timing::{best, seconds, times_as_long, Random, Times};

/// Ends the benchmark where an answer is not the one that is due.
fn check<T: PartialEq + Debug>(name: &str, who: &str, found: T, due: T) {
    if found != due {
        eprintln!("{name}, {who}: {found:?}, due is {due:?}");
        exit(1);
    }
}

/// A watch of either side.
trait Watch: Clone {
    const WHO: &'static str;
    fn row(&mut self, time: u64, values: &[i64]) -> u64;
    fn margin(&self) -> Result<i64, u64>;
}

/// The library's, as its caller holds it.
#[derive(Clone)]
struct Proved {
    numbers: [u64; WATCH_NUMBERS],
    cells: [i64; WATCH_CELLS],
}

impl Watch for Proved {
    const WHO: &'static str = "library";

    fn row(&mut self, time: u64, values: &[i64]) -> u64 {
        names::watch_row(&mut self.numbers, &mut self.cells, time, values)
    }

    fn margin(&self) -> Result<i64, u64> {
        let mut result = [0];
        match names::watch_margin(&self.numbers, &self.cells, &mut result) {
            0 => Ok(result[0]),
            number => Err(number),
        }
    }
}

impl Watch for plain_watch::Watch {
    const WHO: &'static str = "plain Rust";

    fn row(&mut self, time: u64, values: &[i64]) -> u64 {
        plain_watch::Watch::row(self, time, values)
    }

    fn margin(&self) -> Result<i64, u64> {
        plain_watch::Watch::margin(self)
    }
}

/// A watch of each side, both in the same state.
#[derive(Clone)]
struct Both {
    proved: Proved,
    plain: plain_watch::Watch,
}

/// A table, its predicates and scales.
struct Requirement {
    name: String,
    nodes: Vec<Node>,
    predicates: [Predicate; 16],
    scales: Vec<u64>,
}

impl Requirement {
    fn new(text: &str, scales: &[u64]) -> Requirement {
        let nodes = plain_sheets::requirement(text.as_bytes()).expect("the text is a requirement");
        let plural = if nodes.len() == 1 { "" } else { "s" };
        let name = format!("{} node{plural}, {} channels", nodes.len(), scales.len());
        let predicates = predicates(scales.len());
        Requirement { name, nodes, predicates, scales: scales.to_vec() }
    }

    /// The same, its windows written with marks.
    fn marked(&self) -> Requirement {
        Requirement {
            name: format!("{}, with marks", self.name),
            nodes: self.nodes.iter().map(opened).collect(),
            predicates: self.predicates,
            scales: self.scales.clone(),
        }
    }

    fn fresh(&self) -> Both {
        let (ranges, ends) = flat_predicates(&self.predicates);
        let making = Making {
            nodes: &flat_nodes(&self.nodes),
            count: self.nodes.len() as u64,
            ranges: &ranges,
            ends: &ends,
            scales: &self.scales,
        };
        let mut proved = Proved { numbers: [0; WATCH_NUMBERS], cells: [0; WATCH_CELLS] };
        let number = names::watch_fresh(&making, &mut proved.numbers, &mut proved.cells);
        check(&self.name, "library, its making", number, 0);
        let plain = plain_watch::Watch::fresh(&self.nodes, &self.predicates, &self.scales);
        Both { proved, plain }
    }

    /// The margins after each row: those of recordings, each of which has one row more.
    fn margins(&self, rows: &Rows) -> Vec<i64> {
        let mut work = vec![0; self.nodes.len() * rows.times.len()];
        let mut of_first = |count: usize| {
            let card = Card {
                predicates: &self.predicates,
                channels: rows.channels,
                scales: &self.scales,
                times: &rows.times[..count],
                values: &rows.values[..count * rows.channels],
            };
            plain::margin(&self.nodes, &card, &mut work).expect("the recording is accepted")
        };
        (1..=rows.times.len()).map(&mut of_first).collect()
    }
}

/// Rows as they are offered.
#[derive(Clone)]
struct Rows {
    channels: usize,
    times: Vec<u64>,
    values: Vec<i64>,
}

impl Rows {
    /// One to nine seconds apart; random values, ever farther from 0, so that margins change often.
    fn new(count: usize, channels: usize, random: &mut Random) -> Rows {
        let mut time = 1_000;
        let mut next_time = || {
            time += 1 + random.next(9);
            time
        };
        let times = (0..count).map(|_| next_time()).collect();
        let mut value = |row: usize| random.value() / count as i64 * (row as i64 + 1);
        let values = (0..count * channels).map(|place| value(place / channels)).collect();
        Rows { channels, times, values }
    }

    fn of_values(&self) -> impl Iterator<Item = &[i64]> + Clone {
        self.values.chunks_exact(self.channels)
    }
}

/// The number that a row is given, and the margin after it where that is asked for.
type Answer = (u64, Option<i64>);

/// Offers rows to a copy of a watch; what becomes of it.
fn offer<W: Watch>(watch: &W, rows: &Rows, margins: bool, found: &mut [Answer]) -> W {
    let mut watch = watch.clone();
    for ((&time, values), found) in rows.times.iter().zip(rows.of_values()).zip(found) {
        let number = black_box(&mut watch).row(time, black_box(values));
        let margin = if margins { black_box(&watch).margin().ok() } else { None };
        *found = (number, margin);
    }
    watch
}

/// What is timed: rows offered to a watch.
struct Case {
    name: String,
    start: Both,
    rows: Rows,
    /// Whether the margin is asked for after each row.
    margins: bool,
    /// What is due for each row, and the margin in the end.
    due: Vec<Answer>,
    last: i64,
    seconds: Times,
}

impl Case {
    /// Seconds for one offer of all rows. The answers must be those that are due.
    fn turn<W: Watch>(&self, start: &W) -> f64 {
        let mut found = vec![(u64::MAX, None); self.due.len()];
        let mut watch = start.clone();
        let took = seconds(|| watch = offer(start, &self.rows, self.margins, &mut found));
        for (row, (found, due)) in found.into_iter().zip(&self.due).enumerate() {
            check(&self.name, W::WHO, (row, found), (row, *due));
        }
        check(&self.name, W::WHO, watch.margin(), Ok(self.last));
        took
    }

    /// One round: the library and plain Rust in turn, several times.
    fn time(&mut self) {
        let (mut ours, mut theirs) = (Vec::new(), Vec::new());
        for _ in 0..9 {
            ours.push(self.turn(&self.start.proved));
            theirs.push(self.turn(&self.start.plain));
        }
        self.seconds.round(&ours, &theirs);
    }

    /// Nanoseconds for each row, of the library and of plain Rust.
    fn each(&self) -> [f64; 2] {
        let rows = self.rows.times.len() as f64;
        [&self.seconds.proved, &self.seconds.plain].map(|times| best(times) * 1e9 / rows)
    }

    fn print(&self) {
        let [ours, theirs] = self.each();
        print!("{:<48} {:>9.0} rows/s, {ours:>6.1} ns each; ", self.name, 1e9 / ours);
        print!("plain Rust {:>9.0} rows/s, {theirs:>5.1} ns; ", 1e9 / theirs);
        println!("ratio {:.2}", self.seconds.ratio());
    }
}

/// Rows, rows and margins, and rows that are refused by 6.
fn cases_of(requirement: &Requirement, random: &mut Random) -> [Case; 3] {
    let rows = Rows::new(1_000, requirement.scales.len(), random);
    let due = requirement.margins(&rows);
    let start = requirement.fresh();
    let accepted = |what: &str, margins: bool| Case {
        name: format!("{}, {what}", requirement.name),
        start: start.clone(),
        rows: rows.clone(),
        margins,
        due: due.iter().map(|&margin| (0, margins.then_some(margin))).collect(),
        last: due[due.len() - 1],
        seconds: Times::default(),
    };
    // the same rows once more, and the last of them is the last one accepted
    let mut found = vec![(0, None); due.len()];
    let proved = offer(&start.proved, &rows, false, &mut found);
    let plain = offer(&start.plain, &rows, false, &mut found);
    let refused = Case {
        start: Both { proved, plain },
        due: vec![(6, None); due.len()],
        ..accepted("refused by 6", false)
    };
    [accepted("rows", false), accepted("rows and margins", true), refused]
}

const SPAN: usize = 10_000;
const SPANS: usize = 100;

/// Seconds for the first rows, for the last and for all, turn by turn.
#[derive(Default)]
struct Parts {
    first: Vec<f64>,
    last: Vec<f64>,
    all: Vec<f64>,
}

impl Parts {
    /// One watch takes all rows; the margins after each span.
    fn feed<W: Watch>(&mut self, name: &str, fresh: &W, rows: &Rows) -> Vec<Result<i64, u64>> {
        let mut watch = fresh.clone();
        let (mut took, mut margins) = (Vec::new(), Vec::new());
        let mut values = rows.of_values().cycle();
        let mut time = 0;
        for _ in 0..SPANS {
            let mut numbers = 0;
            let began = Instant::now();
            for values in values.by_ref().take(SPAN) {
                time += 3;
                numbers |= black_box(&mut watch).row(time, black_box(values));
            }
            took.push(began.elapsed().as_secs_f64());
            check(name, W::WHO, numbers, 0);
            margins.push(watch.margin());
        }
        self.first.push(took[0]);
        self.last.push(took[SPANS - 1]);
        self.all.push(took.iter().sum());
        margins
    }

    fn print(&self, who: &str) {
        let [first, last] = [&self.first, &self.last].map(|part| best(part) * 1e3);
        print!("    {who}: first {SPAN} {first:.3} ms, last {SPAN} {last:.3} ms, ");
        print!("last / first {:.2}; ", times_as_long(&self.last, &self.first));
        println!("all {:.3} s", best(&self.all));
    }
}

/// A million rows for one watch.
struct Long {
    name: String,
    start: Both,
    /// Their values come again and again.
    rows: Rows,
    proved: Parts,
    plain: Parts,
}

impl Long {
    fn new(requirement: &Requirement, random: &mut Random) -> Long {
        let rows = Rows::new(4_096, requirement.scales.len(), random);
        let name = format!("{}, {} rows for one watch", requirement.name, SPAN * SPANS);
        let (proved, plain) = (Parts::default(), Parts::default());
        Long { name, start: requirement.fresh(), rows, proved, plain }
    }

    /// One round: the library and plain Rust in turn. They must come to the same margins.
    fn time(&mut self) {
        for _ in 0..3 {
            let ours = self.proved.feed(&self.name, &self.start.proved, &self.rows);
            let theirs = self.plain.feed(&self.name, &self.start.plain, &self.rows);
            for (span, (found, due)) in ours.into_iter().zip(theirs).enumerate() {
                check(&self.name, "library, after a span", (span, found), (span, due));
            }
        }
    }

    fn print(&self) {
        println!("{}:", self.name);
        self.proved.print(Proved::WHO);
        self.plain.print(plain_watch::Watch::WHO);
        let first = times_as_long(&self.proved.first, &self.plain.first);
        let last = times_as_long(&self.proved.last, &self.plain.last);
        println!("    ratio of the first {SPAN} {first:.2}, of the last {last:.2}");
    }
}

/// Four parts of seven nodes each, the first perhaps with a "not" more; predicates from p on.
fn parts(p: usize, not: &str) -> [String; 4] {
    let p = |more: usize| format!("p{}", (p + more) % 16);
    [
        format!("{}U[10,600]{not}{}&G[0,*]!{}", p(0), p(1), p(3)),
        format!("(!{}R[0,*]{}|F[60,3600]{})", p(2), p(5), p(7)),
        format!("(({}&{})U[0,*]{}|{})", p(4), p(6), p(9), p(11)),
        format!("(F[0,*]({}&T)|G[5,*]{})", p(13), p(15)),
    ]
}

/// Tables of 1, 3, 8, 16, 32 and 64 nodes.
fn texts() -> [String; 6] {
    let ([a, b, c, d], [e, f, g, h]) = (parts(0, "!"), parts(8, ""));
    [
        "p0".to_string(),
        "p0U[10,600]p1".to_string(),
        a.clone(),
        format!("{a}&{b}"),
        format!("{a}&{b}|{c}&{d}"),
        format!("{a}&{b}|{c}&{d}|{e}&{f}|{g}&{h}"),
    ]
}

/// Even ones are wide, so that what an until or a release carries from its left does not settle it
/// at once; odd ones are narrow. Channels come by turns.
fn predicates(channels: usize) -> [Predicate; 16] {
    std::array::from_fn(|p| {
        let far = if p % 2 == 0 { 1_000_000_000 } else { 1_000_000 * p as i64 };
        let range = match p / 2 % 3 {
            _ if p == 14 => Range::Free,
            0 => Range::AtLeast(-far),
            1 => Range::AtMost(far),
            _ => Range::Between(-far, far),
        };
        Predicate { channel: p % channels, range }
    })
}

const SCALES: [u64; 8] = [50, 7, 1_000, 3, 400, 10, 1, 2];

/// Nanoseconds that a node more takes, from one node to 64.
fn print_growth(requirements: &[Requirement], cases: &[[Case; 3]]) {
    let [one, many] = [&cases[0][0], &cases[cases.len() - 1][0]].map(Case::each);
    let more = (requirements[requirements.len() - 1].nodes.len() - 1) as f64;
    let [ours, theirs] = [0, 1].map(|who| (many[who] - one[who]) / more);
    let channels = requirements[0].scales.len();
    println!("{channels} channels, rows: each node more {ours:.2} ns, plain Rust {theirs:.2} ns");
}

/// A row of each table, all together.
fn print_together(cases: &[Vec<[Case; 3]>]) {
    let each: Vec<[f64; 2]> = cases.iter().flatten().map(|case| case[0].each()).collect();
    let [ours, theirs] = [0, 1].map(|who| each.iter().map(|times| times[who]).sum::<f64>());
    print!("rows, a row of each table: {ours:.0} ns, plain Rust {theirs:.0} ns, ");
    println!("ratio {:.2}", ours / theirs);
}

fn main() {
    let random = &mut Random(12345);
    let of = |channels: usize| texts().map(|text| Requirement::new(&text, &SCALES[..channels]));
    let groups = [2, 8].map(of);
    let mut cases: Vec<Vec<[Case; 3]>> = groups
        .iter()
        .map(|group| group.iter().map(|requirement| cases_of(requirement, random)).collect())
        .collect();
    // of 8 and of 64 nodes
    let mut longs = [2, 5].map(|place| Long::new(&groups[0][place], random));
    // last, so that the others' rows are the same as without these
    let mut marked = [2, 5].map(|place| cases_of(&groups[0][place].marked(), random));
    // rounds over all cases, so that a slow spell of the machine does not fall on one of them alone
    for _ in 0..9 {
        cases.iter_mut().flatten().chain(&mut marked).flatten().for_each(Case::time);
        longs.iter_mut().for_each(Long::time);
    }
    let all = || cases.iter().flatten().chain(&marked).flatten();
    all().for_each(Case::print);
    longs.iter().for_each(Long::print);
    groups.iter().zip(&cases).for_each(|(group, cases)| print_growth(group, cases));
    print_together(&cases);
    let largest = all()
        .max_by(|a, b| a.seconds.ratio().total_cmp(&b.seconds.ratio()))
        .expect("there are cases");
    println!("largest ratio to plain Rust: {:.2}, {}", largest.seconds.ratio(), largest.name);
}
