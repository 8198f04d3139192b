//! Times the proved writer of requirement text beside plain Rust of the same algorithm, checks that
//! both write the same bytes, and prints the ratios.

#[path = "../rust/src/names.rs"]
#[allow(dead_code)]
mod names;

#[allow(dead_code)]
mod flat;
#[allow(dead_code)]
mod plain;
#[allow(dead_code)]
mod plain_sheets;
mod plain_texts;
#[allow(dead_code)]
mod timing;

use flat::flat_nodes;
use names::NODES;
use plain::{node, Node, NO_END};
use plain_texts::LONGEST_TEXT;
use std::hint::black_box;
use timing::{best, seconds, Times};

/// The text's length, or the number of what refuses it.
type Answer = Result<usize, u64>;

fn proved(nodes: &[u64], count: u64, text: &mut [u8]) -> Answer {
    let written = names::write(nodes, count, text);
    if written.number == 0 {
        Ok(written.length)
    } else {
        Err(written.number)
    }
}

/// What is timed: the writing of a table into a slice of so many bytes.
struct Case {
    name: String,
    nodes: [u64; NODES],
    count: u64,
    room: usize,
    /// The text that is due, or the number of what refuses the table.
    due: Result<String, u64>,
    seconds: Times,
}

impl Case {
    fn new(name: &str, nodes: &[Node], due: Result<String, u64>) -> Case {
        Case {
            name: name.to_string(),
            nodes: flat_nodes(nodes),
            count: nodes.len() as u64,
            room: LONGEST_TEXT,
            due,
            seconds: Times::default(),
        }
    }

    /// The table that is read from a text; the same text is due.
    fn of_text(name: &str, text: String) -> Case {
        let nodes = plain_sheets::requirement(text.as_bytes()).expect("the text is a requirement");
        Case::new(name, &nodes, Ok(text))
    }

    fn text(&self) -> &str {
        self.due.as_deref().unwrap_or("")
    }

    /// One round: the library and plain Rust in turn, several times. They must answer as is due,
    /// and leave the text and behind it what the slice held.
    fn time(&mut self) {
        let (nodes, count) = (&self.nodes, self.count);
        let due = self.due.as_ref().map(String::len).map_err(|&number| number);
        let held = vec![b'.'; self.room];
        let mut left = held.clone();
        left[..self.text().len()].copy_from_slice(self.text().as_bytes());
        let (mut ours, mut theirs) = (Vec::new(), Vec::new());
        for _ in 0..9 {
            let (mut a, mut b) = (held.clone(), held.clone());
            let (mut x, mut y) = (Ok(0), Ok(0));
            ours.push(seconds(|| x = proved(black_box(nodes), count, black_box(&mut a))));
            theirs.push(seconds(|| {
                y = plain_texts::write(black_box(nodes), count, black_box(&mut b));
            }));
            assert!(x == y && a == b, "results differ: {}", self.name);
            assert!(x == due && a == left, "not what is due: {}", self.name);
        }
        self.seconds.round(&ours, &theirs);
    }

    fn print(&self) {
        let (what, unit) = match &self.due {
            Ok(text) => (format!("{} bytes", text.len()), "texts/s"),
            Err(number) => (format!("refused by {number}"), "calls/s"),
        };
        let (ours, theirs) = (1.0 / best(&self.seconds.proved), 1.0 / best(&self.seconds.plain));
        print!("{:<44} {what:>13}: {ours:>9.0} {unit}, ", self.name);
        println!("plain Rust {theirs:>9.0} {unit}, ratio {:.2}", self.seconds.ratio());
    }
}

/// Windows with long texts, and endless ones: both ends counted, and all ends excluded that can be.
const FAR: [&str; 2] = ["[1000000000,1000000000]", "[999999999,*]"];
const MARKED: [&str; 2] = ["(999999998,1000000000)", "(999999999,*]"];

/// 64 nodes of every kind. Half of them have a window.
fn large([far, endless]: [&str; 2]) -> String {
    let first = format!("F{far}G{far}(F{far}p10U{far}p11)");
    let second = format!("G{far}(G{endless}T|F{far}p12R{far}p13)");
    format!("!({})", vec![format!("{first}&{second}"); 4].join("|"))
}

/// 64 nodes without parentheses: 32 predicates, grouped to the left, and one "not".
fn without_parentheses() -> String {
    let predicates: Vec<String> = (0..32).map(|p| format!("p{}", p % 16)).collect();
    format!("!{}", predicates.join("&"))
}

/// 32 enclosings.
fn deep() -> String {
    "!G[0,60]F[10,600](p0|".repeat(8) + "T" + &")".repeat(8)
}

/// So many parts of four nodes: three and what joins them, and one "not".
fn parts(count: usize) -> String {
    format!("!{}", ["p10U[10,600]p11"].repeat(count).join("|"))
}

/// 64 nodes, of which the root reaches the last seven: p9, over it five nodes, each of which has the
/// one before it for both its children, and an "always". Written once for each use they are 64, too.
fn shared() -> Case {
    let mut nodes: Vec<Node> = (0..58).map(|p| node(1, p % 16, 0, 0, 0)).collect();
    for (kind, lo, hi) in [(3, 0, 0), (4, 0, 0), (5, 10, 600), (6, 0, NO_END), (4, 0, 0)] {
        let last = nodes.len() - 1;
        nodes.push(node(kind, last, last, lo, hi));
    }
    nodes.push(node(8, 62, 0, 0, 60));
    let or = "p9&p9|p9&p9";
    let until = format!("({or})U[10,600]({or})");
    let release = format!("({until})R[0,*]({until})");
    Case::new("64 nodes, shared", &nodes, Ok(format!("G[0,60]({release}|{release})")))
}

/// A predicate, and over it 63 of "and", each of which has the one before it for both its children.
fn doubled() -> Case {
    let over = (0..63).map(|k| node(3, k, k, 0, 0));
    let nodes: Vec<Node> = [node(1, 0, 0, 0, 0)].into_iter().chain(over).collect();
    Case::new("64 nodes, each the one before it twice", &nodes, Err(14))
}

fn cases() -> Vec<Case> {
    let every = "64 nodes of every kind";
    let short = Case::of_text(&format!("{every}, a byte too short"), large(FAR));
    vec![
        Case::of_text(every, large(FAR)),
        Case::of_text(&format!("{every} with marks"), large(MARKED)),
        Case::of_text("64 nodes without parentheses", without_parentheses()),
        shared(),
        Case::of_text("32 enclosings", deep()),
        Case::of_text("two nodes", "F[0,7200]p0".to_string()),
        doubled(),
        Case { room: large(FAR).len() - 1, due: Err(15), ..short },
    ]
}

/// Tables of one shape, each twice the one before it.
fn growing() -> Vec<Case> {
    let case = |count| Case::of_text(&format!("{} nodes of one shape", 4 * count), parts(count));
    [2, 4, 8, 16].map(case).into()
}

/// Nanoseconds for each byte of a text, and for each byte that it has more than the one before it.
fn print_growth(who: &str, cases: &[Case], times: fn(&Case) -> &Vec<f64>) {
    let took = |case: &Case| best(times(case)) * 1e9;
    let bytes = |case: &Case| case.text().len() as f64;
    let each: Vec<f64> = cases.iter().map(|case| took(case) / bytes(case)).collect();
    let more = |two: &[Case]| (took(&two[1]) - took(&two[0])) / (bytes(&two[1]) - bytes(&two[0]));
    let more: Vec<f64> = cases.windows(2).map(more).collect();
    println!("8, 16, 32, 64 nodes, {who}: {each:.2?} ns a byte; each byte more {more:.2?} ns");
}

fn print_worst(cases: &[Case]) {
    let worst = cases.iter().find(|case| case.due == Err(14)).expect("it is among the cases");
    let took = best(&worst.seconds.proved) * 1e6;
    println!("{}: refused in {took:.2} us; unshared it has 2^64 - 1 nodes", worst.name);
}

fn main() {
    let (mut cases, mut growing) = (cases(), growing());
    // rounds over all cases, so that a slow spell of the machine does not fall on one of them alone
    for _ in 0..9 {
        cases.iter_mut().chain(&mut growing).for_each(Case::time);
    }
    let all = || cases.iter().chain(&growing);
    all().for_each(Case::print);
    print_growth("library", &growing, |case| &case.seconds.proved);
    print_growth("plain Rust", &growing, |case| &case.seconds.plain);
    print_worst(&cases);
    let large = all().filter(|case| case.count == 64 && case.due.is_ok());
    let largest = large
        .max_by(|a, b| a.seconds.ratio().total_cmp(&b.seconds.ratio()))
        .expect("there are cases");
    let (ratio, name) = (largest.seconds.ratio(), &largest.name);
    println!("largest ratio of 64 nodes to plain Rust: {ratio:.2} (at most 1.5 wanted), {name}");
}
