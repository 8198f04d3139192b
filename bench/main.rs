//! Times the proved margin and verdict beside plain Rust of the same algorithm, checks that every result and every cell is equal, and prints the ratios.

mod flat;
#[path = "../rust/src/names.rs"]
#[allow(dead_code)]
mod names;
mod plain;
#[allow(dead_code)]
mod plain_sheets;
mod timing;

use flat::{flat_nodes, flat_predicates};
use names::{Call, ENDS, NODES, RANGES};
use plain::{node, opened, Card, Node, Predicate, Range, NO_END};
use std::fmt;
use timing::{best, seconds, times_as_long, Random, Times};

const STEP: u64 = 3;
/// Any two values obey it where the scales are 1.
const DRIFT: u64 = 1_000_000_000;

/// A table and its predicates as flat numbers.
struct Flat {
    nodes: [u64; NODES],
    ranges: [u64; RANGES],
    ends: [i64; ENDS],
}

fn flat(nodes: &[Node], predicates: &[Predicate; 16]) -> Flat {
    let (ranges, ends) = flat_predicates(predicates);
    Flat { nodes: flat_nodes(nodes), ranges, ends }
}

fn call<'a>(f: &'a Flat, count: usize, card: &Card<'a>) -> Call<'a> {
    Call {
        nodes: &f.nodes,
        count: count as u64,
        ranges: &f.ranges,
        ends: &f.ends,
        channels: card.channels as u64,
        scales: card.scales,
        times: card.times,
        values: card.values,
    }
}

/// A margin, or hold and fail.
type Found = Option<(i64, i64)>;

fn proved(verdict: bool, f: &Flat, count: usize, card: &Card, work: &mut [i64]) -> Found {
    let call = call(f, count, card);
    let mut result = [0; 3];
    if verdict {
        (names::verdict(&call, STEP, DRIFT, work, &mut result) == 0)
            .then_some((result[1], result[2]))
    } else {
        (names::margin(&call, work, &mut result) == 0).then_some((result[0], 0))
    }
}

/// Plain Rust of the library's algorithm.
fn plain(verdict: bool, nodes: &[Node], card: &Card, work: &mut [i64]) -> Found {
    if verdict {
        plain::verdict(nodes, card, STEP, DRIFT, work)
    } else {
        plain::margin(nodes, card, work).map(|margin| (margin, 0))
    }
}

/// The plain loop.
fn afresh(verdict: bool, nodes: &[Node], card: &Card, work: &mut [i64]) -> Found {
    if verdict {
        plain::verdict_afresh(nodes, card, STEP, DRIFT, work)
    } else {
        plain::margin_afresh(nodes, card, work).map(|margin| (margin, 0))
    }
}

/// What a recording's values are, row by row.
#[derive(Clone, Copy)]
enum Values {
    Equal(i64),
    Rising,
    Falling,
    Random,
    /// Random, ever closer to 0.
    Narrowing,
    /// Random, a thousandth of the others, so that the drift is obeyed by every scale.
    Small,
}

impl Values {
    fn at(self, row: usize, rows: usize, random: &mut Random) -> i64 {
        match self {
            Values::Equal(value) => value,
            Values::Rising => row as i64 * 1_000 - 2_000_000,
            Values::Falling => 2_000_000 - row as i64 * 1_000,
            Values::Random => random.value(),
            Values::Narrowing => random.value() / rows as i64 * (rows - row) as i64,
            Values::Small => random.value() / 1_000,
        }
    }
}

impl fmt::Display for Values {
    fn fmt(&self, f: &mut fmt::Formatter) -> fmt::Result {
        match self {
            Values::Equal(value) => write!(f, "all values {value}"),
            Values::Rising => write!(f, "rising values"),
            Values::Falling => write!(f, "falling values"),
            Values::Random => write!(f, "random values"),
            Values::Narrowing => write!(f, "narrowing values"),
            Values::Small => write!(f, "small values"),
        }
    }
}

/// What is timed: a table's margin or its verdict over a recording of two channels, with scales of 1 unless said otherwise.
struct Case {
    name: String,
    nodes: Vec<Node>,
    scales: [u64; 2],
    times: Vec<u64>,
    values: Vec<i64>,
    verdict: bool,
    /// Whether the plain loop is timed too.
    beside_afresh: bool,
    seconds: Times,
    /// Of the plain loop, for each round.
    afresh: Vec<f64>,
}

impl Case {
    fn new(what: &str, nodes: &[Node], rows: usize, kind: Values, random: &mut Random) -> Case {
        let values = (0..2 * rows).map(|place| kind.at(place / 2, rows, random)).collect();
        Case {
            name: format!("{what}, {kind}"),
            nodes: nodes.to_vec(),
            scales: [1, 1],
            times: (0..rows as u64).collect(),
            values,
            verdict: false,
            beside_afresh: false,
            seconds: Times::default(),
            afresh: Vec::new(),
        }
    }

    /// One round: the library and plain Rust in turn, several times. They must answer the same and leave the same cells.
    fn time(&mut self, predicates: &[Predicate; 16]) {
        let (nodes, f) = (&self.nodes[..], flat(&self.nodes, predicates));
        let card = Card {
            predicates,
            channels: 2,
            scales: &self.scales,
            times: &self.times,
            values: &self.values,
        };
        let (n, verdict) = (nodes.len(), self.verdict);
        let mut a = vec![0; (1 + usize::from(verdict)) * n * card.times.len() + 3];
        let mut b = a.clone();
        let (mut ours, mut theirs) = (Vec::new(), Vec::new());
        for _ in 0..9 {
            let (mut x, mut y) = (None, None);
            ours.push(seconds(|| x = proved(verdict, &f, n, &card, &mut a)));
            theirs.push(seconds(|| y = plain(verdict, nodes, &card, &mut b)));
            assert!(x.is_some() && x == y && a == b, "results differ: {}", self.name);
        }
        self.seconds.round(&ours, &theirs);
        if self.beside_afresh {
            // once: it is slow
            let (mut y, mut b) = (None, vec![0; a.len()]);
            self.afresh.push(seconds(|| y = afresh(verdict, nodes, &card, &mut b)));
            assert!(
                y == plain(verdict, nodes, &card, &mut a) && a == b,
                "results of the plain loop differ: {}",
                self.name
            );
        }
    }

    fn print(&self) {
        let (ours, theirs) = (best(&self.seconds.proved) * 1e3, best(&self.seconds.plain) * 1e3);
        println!(
            "{:<44} {:>5} rows: {ours:>9.3} ms, plain Rust {theirs:>9.3} ms, ratio {:.2}",
            self.name,
            self.times.len(),
            self.seconds.ratio()
        );
    }
}

/// Two predicates and one operator with a window over them: until or release of both, eventually or always of the second.
fn one_operator(kind: u64, window: &str) -> (String, [Node; 3]) {
    let (letter, left, right) = match kind {
        5 => ("p0U", 0, 1),
        6 => ("p0R", 0, 1),
        7 => ("F", 1, 0),
        _ => ("G", 1, 0),
    };
    let read = plain_sheets::window(window.as_bytes());
    let ([lo, hi, open_lo, open_hi], _) = read.expect("the text is a window");
    let operator = Node { kind, left, right, lo, hi, open_lo, open_hi };
    (format!("{letter}{window}p1"), [node(1, 0, 0, 0, 0), node(1, 1, 0, 0, 0), operator])
}

/// 64 nodes: four predicates, and over them every kind in turn with random children and short windows.
fn mixed_table(random: &mut Random) -> Vec<Node> {
    let mut nodes: Vec<Node> = (0..4).map(|p| node(1, p, 0, 0, 0)).collect();
    for k in 4..64 {
        let (kind, left, right) =
            (2 + k as u64 % 7, random.next(k as u64) as usize, random.next(k as u64) as usize);
        let lo = random.next(20);
        nodes.push(match kind {
            2 => node(2, left, 0, 0, 0),
            3 | 4 => node(kind, left, right, 0, 0),
            5 | 6 => node(kind, left, right, lo, lo + random.next(100)),
            _ => node(kind, left, 0, lo, lo + random.next(100)),
        });
    }
    nodes
}

/// 64 nodes: a predicate, and over it by turns `F[0,*]` and `G[0,*]`. Each over the one before would be the same number everywhere from the third node on.
fn endless_table() -> Vec<Node> {
    (0..64)
        .map(|k| if k == 0 { node(1, 0, 0, 0, 0) } else { node(7 + k % 2, 0, 0, 0, NO_END) })
        .collect()
}

const UNTIL_WINDOWS: [&str; 5] = ["[0,*]", "[10,600]", "[1800,3600]", "[1800,*]", "[0,0]"];
const EVENTUALLY_WINDOWS: [&str; 4] = ["[0,*]", "[10,600]", "[1800,3600]", "[0,0]"];
/// Before the hour is over, and after its first half.
const MARKED_WINDOWS: [&str; 2] = ["[0,3600)", "(1800,3600]"];
/// With 7 everywhere left is 5 and right is -1, so that until never settles and release at once; with 2 everywhere it is the other way round.
const UNTIL_VALUES: [Values; 3] = [Values::Equal(7), Values::Equal(2), Values::Random];
const EVENTUALLY_VALUES: [Values; 4] =
    [Values::Equal(7), Values::Rising, Values::Falling, Values::Random];

/// One operator over 2,048 rows and then over 4,096.
fn operator_cases(
    kinds: &[u64],
    windows: &[&str],
    values: &[Values],
    random: &mut Random,
) -> Vec<Case> {
    let mut cases = Vec::new();
    for &kind in kinds {
        for &window in windows {
            for &values in values {
                let (what, nodes) = one_operator(kind, window);
                cases.extend(
                    [2_048, 4_096].map(|rows| Case::new(&what, &nodes, rows, values, random)),
                );
            }
        }
    }
    cases
}

/// Margin and verdict of 64 nodes.
fn table_cases(random: &mut Random) -> Vec<Case> {
    let (mixed, endless) = (mixed_table(random), endless_table());
    let marked: Vec<Node> = mixed.iter().map(opened).collect();
    let mut case = |verdict: bool, what: &str, nodes: &[Node], rows: usize, values: Values| {
        let asked = if verdict { "verdict" } else { "margin" };
        Case { verdict, ..Case::new(&format!("64 {what}, {asked}"), nodes, rows, values, random) }
    };
    let mut cases = Vec::new();
    for verdict in [false, true] {
        let rows = [2_048, 4_096];
        cases.extend(rows.map(|rows| case(verdict, "mixed nodes", &mixed, rows, Values::Random)));
        // with random values the extremum up to the end would hardly change
        let case = case(verdict, "endless nodes", &endless, 4_096, Values::Narrowing);
        cases.push(Case { beside_afresh: true, ..case });
    }
    // behind the others, so that their random values are the same as without these
    let scaled = |verdict| Case {
        scales: [7, 1_000],
        ..case(verdict, "mixed nodes, two scales", &mixed, 4_096, Values::Small)
    };
    cases.extend([false, true].map(scaled));
    let marked = |verdict| case(verdict, "mixed nodes with marks", &marked, 4_096, Values::Random);
    cases.extend([false, true].map(marked));
    cases
}

fn predicates() -> [Predicate; 16] {
    let mut predicates = [Predicate { channel: 0, range: Range::Unset }; 16];
    predicates[0] = Predicate { channel: 0, range: Range::AtLeast(3) };
    predicates[1] = Predicate { channel: 1, range: Range::AtMost(6) };
    predicates[2] = Predicate { channel: 0, range: Range::Between(-400_000_000, 400_000_000) };
    predicates[3] = Predicate { channel: 1, range: Range::Free };
    predicates
}

/// How many times as long 4,096 rows take as 2,048, by name.
fn growths(cases: &[Case]) -> Vec<(&str, f64)> {
    let pairs = cases.chunks_exact(2);
    pairs
        .map(|pair| {
            (pair[0].name.as_str(), times_as_long(&pair[1].seconds.proved, &pair[0].seconds.proved))
        })
        .collect()
}

fn print_growth_of_until(cases: &[Case]) {
    for (name, growth) in growths(cases) {
        if name.contains("[0,*]") && name.contains("all values") {
            println!(
                "{name}: 4096 rows take {growth:.2} times as long as 2048 (at most 6; 4.2 wanted)"
            );
        }
    }
}

fn print_growth_of_eventually(cases: &[Case]) {
    let growths = growths(cases);
    let largest = |of: &str| {
        growths
            .iter()
            .filter(|(name, _)| name.contains(of))
            .max_by(|a, b| a.1.total_cmp(&b.1))
            .expect("it is among the cases")
    };
    for window in EVENTUALLY_WINDOWS {
        let (name, growth) = largest(window);
        println!(
            "F and G, {window}: 4096 rows take at most {growth:.2} times as long as 2048, {name}"
        );
    }
    let (name, growth) = largest("");
    println!(
        "F and G: 4096 rows take at most {growth:.2} times as long as 2048 (2.4 wanted), {name}"
    );
}

fn print_tables(cases: &[Case]) {
    for c in cases.iter().filter(|c| c.times.len() == 4_096) {
        print!(
            "{}, 4096 rows: {:.2} times plain Rust (at most 1.1 wanted)",
            c.name,
            c.seconds.ratio()
        );
        if c.beside_afresh {
            print!(
                "; the plain loop takes {:.0} times as long as the library (at least 50 wanted)",
                times_as_long(&c.afresh, &c.seconds.proved)
            );
        }
        println!();
    }
}

fn main() {
    let (random, predicates) = (&mut Random(12345), predicates());
    let mut untils = operator_cases(&[5, 6], &UNTIL_WINDOWS, &UNTIL_VALUES, random);
    let mut eventuallies = operator_cases(&[7, 8], &EVENTUALLY_WINDOWS, &EVENTUALLY_VALUES, random);
    let mut tables = table_cases(random);
    // last, so that the others' random values are the same as without these
    let mut marked = operator_cases(&[5, 6, 7, 8], &MARKED_WINDOWS, &[Values::Random], random);
    // rounds over all cases, so that a slow spell of the machine does not fall on one of them alone
    for _ in 0..9 {
        let all = untils.iter_mut().chain(&mut eventuallies).chain(&mut tables).chain(&mut marked);
        all.for_each(|case| case.time(&predicates));
    }
    let all = || untils.iter().chain(&eventuallies).chain(&tables).chain(&marked);
    all().for_each(Case::print);
    print_growth_of_until(&untils);
    print_growth_of_eventually(&eventuallies);
    print_tables(&tables);
    let largest = all()
        .max_by(|a, b| a.seconds.ratio().total_cmp(&b.seconds.ratio()))
        .expect("there are cases");
    println!(
        "largest ratio to plain Rust: {:.2} (at most 1.1 wanted), {}, {} rows",
        largest.seconds.ratio(),
        largest.name,
        largest.times.len()
    );
}
