//! Times the proved answer and the proved readers of sheets, requirements and rows beside plain Rust that does the same, checks that both give the same, and prints the ratios.

mod flat;
#[path = "../rust/src/names.rs"]
#[allow(dead_code)]
mod names;
#[allow(dead_code)]
mod plain;
mod plain_sheets;
#[allow(dead_code)]
mod timing;

use flat::{flat_nodes, flat_predicates};
use std::hint::black_box;
use timing::{seconds, Random};

/// Sheets, and what the answer to each begins with.
const EXAMPLES: [(&str, &[u8], &str); 10] = [
    ("booster-turn-up", include_bytes!("../examples/booster-turn-up.sheet"), "rows="),
    (
        "line-amplifier-gain-sag",
        include_bytes!("../examples/line-amplifier-gain-sag.sheet"),
        "rows=",
    ),
    (
        "preamplifier-pump-ceiling",
        include_bytes!("../examples/preamplifier-pump-ceiling.sheet"),
        "rows=",
    ),
    ("collector-restart", include_bytes!("../examples/collector-restart.sheet"), "refused=10\n"),
    ("two-stage-turn-up", include_bytes!("../examples/two-stage-turn-up.sheet"), "rows="),
    (
        "line-card-acceptance",
        include_bytes!("../examples/line-card-acceptance.sheet"),
        "req=3 rows=",
    ),
    ("standby-pump-start", include_bytes!("../examples/standby-pump-start.sheet"), "req=0 rows="),
    ("line-card-two-pumps", include_bytes!("../examples/line-card-two-pumps.sheet"), "req=0 rows="),
    ("booster-heat-run", include_bytes!("../examples/booster-heat-run.sheet"), "rows="),
    (
        "line-amplifier-repair",
        include_bytes!("../examples/line-amplifier-repair.sheet"),
        "req=0 rows=",
    ),
];

/// Requirements of one and two nodes, as many as 8,192 cells take over 2,048 rows. Their windows are short, so that reading the rows counts.
const SIXTEEN: [&str; 16] = [
    "p0", "T", "G[0,5]p0", "F[0,5]p1", "!p0", "G[1,8]p2", "F[3,10]p3", "!p4", "p5", "G[0,0]p6",
    "F[2,6]p7", "!T", "p8", "G[4,9]p9", "F[1,4]p0", "!p1",
];

/// Unequal scales, for eight channels.
const SCALES: [u64; 8] = [5, 1, 2, 10, 50, 100, 500, 1_000];

/// What is timed of a text: of an answer, what it begins with.
#[derive(Clone, Copy)]
enum What {
    Answer(&'static str),
    Sheet,
    Requirement,
    Rows(usize),
}

struct Case {
    what: What,
    name: String,
    text: Vec<u8>,
    best: (f64, f64),
}

/// Room for everything that the library hands back, used again in each call.
struct Room {
    lines: [u8; names::LINES],
    numbers: [u64; names::NUMBERS],
    places: [u64; names::PLACES],
    scales: [u64; names::SCALES],
    ranges: [u64; names::RANGES],
    ends: [i64; names::ENDS],
    nodes: [u64; names::NODES],
    count: [u64; 1],
    times: Vec<u64>,
    values: Vec<i64>,
    counts: [u64; names::COUNTS],
}

impl Room {
    fn new() -> Room {
        Room {
            lines: [0; names::LINES],
            numbers: [0; names::NUMBERS],
            places: [0; names::PLACES],
            scales: [0; names::SCALES],
            ranges: [0; names::RANGES],
            ends: [0; names::ENDS],
            nodes: [0; names::NODES],
            count: [0],
            times: vec![0; 4_096],
            values: vec![0; 8 * 4_096],
            counts: [0; names::COUNTS],
        }
    }
}

fn proved(what: What, text: &[u8], room: &mut Room) -> u64 {
    match what {
        What::Answer(_) => names::answer(text, &mut room.lines) as u64,
        What::Sheet => {
            let Room { numbers, places, scales, ranges, ends, .. } = room;
            names::sheet(text, names::Sheet { numbers, places, scales, ranges, ends })
        }
        What::Requirement => names::requirement(text, &mut room.nodes, &mut room.count),
        What::Rows(channels) => {
            names::rows(text, channels as u64, &mut room.times, &mut room.values, &mut room.counts)
        }
    }
}

/// Room for what plain Rust hands back.
struct PlainRoom {
    lines: Vec<u8>,
    times: Vec<u64>,
    values: Vec<i64>,
}

fn plain(what: What, text: &[u8], room: &mut PlainRoom) {
    match what {
        What::Answer(_) => plain_sheets::answer(text, &mut room.lines),
        What::Sheet => drop(black_box(plain_sheets::sheet(text))),
        What::Requirement => drop(black_box(plain_sheets::requirement(text))),
        What::Rows(channels) => {
            let _ =
                black_box(plain_sheets::rows(text, channels, &mut room.times, &mut room.values));
        }
    }
}

/// The requirements' places in the text, as the library gives them.
fn places(text: &[u8], sheet: &plain_sheets::Sheet) -> [u64; names::PLACES] {
    let mut places = [0; names::PLACES];
    let mut to = text.len() - sheet.rows.len();
    // from the last line to the first: a line feed, the requirement, `req=`
    for (k, requirement) in sheet.requirements().iter().enumerate().rev() {
        (places[2 * k], places[2 * k + 1]) = ((to - 1 - requirement.len()) as u64, to as u64 - 1);
        to -= requirement.len() + 5;
    }
    places
}

/// Whether both hand back the same. The readers' texts are accepted ones.
fn agree(what: What, text: &[u8], ours: &mut Room, theirs: &mut PlainRoom) -> bool {
    let number = proved(what, text, ours);
    match what {
        What::Answer(begins) => {
            plain_sheets::answer(text, &mut theirs.lines);
            ours.lines[..number as usize] == theirs.lines[..]
                && theirs.lines.starts_with(begins.as_bytes())
        }
        What::Sheet => plain_sheets::sheet(text).is_ok_and(|sheet| {
            let (rows, count) = (text.len() - sheet.rows.len(), sheet.requirements().len());
            let numbers =
                [sheet.channels as u64, sheet.step, sheet.drift, rows as u64, count as u64];
            let predicates = (ours.ranges, ours.ends) == flat_predicates(&sheet.predicates);
            number == 0
                && ours.numbers == numbers
                && ours.places == places(text, &sheet)
                && ours.scales == sheet.scales
                && predicates
        }),
        What::Requirement => plain_sheets::requirement(text).is_some_and(|nodes| {
            number == 0 && ours.count == [nodes.len() as u64] && ours.nodes == flat_nodes(&nodes)
        }),
        What::Rows(channels) => {
            let counts = plain_sheets::rows(text, channels, &mut theirs.times, &mut theirs.values);
            let same = counts.is_ok_and(|(measured, filled)| {
                number == 0 && ours.counts == [measured as u64, filled as u64]
            });
            same && ours.times == theirs.times && ours.values == theirs.values
        }
    }
}

impl Case {
    fn time(&mut self, ours: &mut Room, theirs: &mut PlainRoom) {
        let (what, text) = (self.what, &self.text);
        for _ in 0..9 {
            assert!(agree(what, text, ours, theirs), "results differ: {}", self.name);
            self.best.0 = self.best.0.min(seconds(|| {
                black_box(proved(what, black_box(text), ours));
            }));
            self.best.1 = self.best.1.min(seconds(|| plain(what, black_box(text), theirs)));
        }
    }

    fn ratio(&self) -> f64 {
        self.best.0 / self.best.1
    }

    fn print(&self) {
        let bytes = self.text.len();
        let (per, unit) = match self.what {
            What::Answer(_) => (1.0, "sheets/s"),
            _ => (bytes as f64 / 1e6, "MB/s"),
        };
        let word = match self.what {
            What::Answer(_) => "answer",
            What::Sheet => "sheet",
            What::Requirement => "requirement",
            What::Rows(_) => "rows",
        };
        let (ours, theirs) = (per / self.best.0, per / self.best.1);
        println!("{:<42} {bytes:>6} bytes: {ours:>9.0} {unit}, plain Rust {theirs:>9.0} {unit}, ratio {:.2}", format!("{word}, {}", self.name), self.ratio());
    }
}

/// So many rows, one second apart, of random values that obey the drift, scaled; before one of sixteen stands a filled one.
fn random_rows(random: &mut Random, rows: usize, scales: &[u64]) -> String {
    let mut text = String::new();
    for i in 0..rows {
        for source in if i % 16 == 7 { &["f", "m"][..] } else { &["m"][..] } {
            text += &format!("t={i} src={source}");
            for (channel, &scale) in scales.iter().enumerate() {
                text += &format!(" v{channel}={}", random.value() / scale as i64);
            }
            text.push('\n');
        }
    }
    text
}

/// What stands before the rows: the scale of each channel, ten predicates, a drift that any two values obey where the scales are 1, and the requirement.
fn front(scales: &[u64], requirement: &str) -> String {
    let channels = scales.len();
    let scales: String = scales
        .iter()
        .enumerate()
        .map(|(channel, scale)| format!("c={channel} scale={scale}\n"))
        .collect();
    let predicates: String = (0..10)
        .map(|p| {
            format!(
                "p={p} ch={} lo=-{}00000000 hi={}\n",
                p % channels,
                p + 1,
                ["*", "900000000"][p % 2]
            )
        })
        .collect();
    format!("chan={channels}\n{scales}{predicates}step=1\ndrift=1000000000\nreq={requirement}\n")
}

/// Until, release, eventually and always, and the same windows with marks.
const PARTS: [&str; 4] = ["p0U[3,40]p1", "p2R[0,25]p3", "F[2,30]p4", "!G[0,600]p5"];
const MARKED_PARTS: [&str; 4] = ["p0U(2,41)p1", "p2R[0,26)p3", "F(1,31)p4", "!G[0,601)p5"];

/// A requirement of 63 nodes: four parts by turns, joined.
fn broad(parts: [&str; 4]) -> String {
    let joined: Vec<&str> = (0..17).map(|i| parts[i % 4]).collect();
    joined.join("|")
}

/// A requirement 32 enclosings deep.
fn deep() -> String {
    "(".repeat(8) + &"!G[0,1000000000](".repeat(8) + "p0U[10,*]p1" + &")".repeat(16)
}

fn cases() -> Vec<Case> {
    let random = &mut Random(12345);
    let rows = [
        ("2,048 rows, 1 channel", &[1][..], random_rows(random, 2_048, &[1])),
        ("500 rows, 8 channels", &[1; 8], random_rows(random, 500, &[1; 8])),
        // from a seed of its own: the other cases have the same values as without it
        ("500 rows, 8 scales", &SCALES, random_rows(&mut Random(67890), 500, &SCALES)),
    ];
    let broken = format!(
        "{}{}t=9 src=m v0=-0\n",
        front(&[1], "G[0,600]p0"),
        random_rows(random, 1_000, &[1])
    );
    let mut cases = Vec::new();
    let mut case = |what, name: &str, text: &[u8]| {
        cases.push(Case {
            what,
            name: name.to_string(),
            text: text.to_vec(),
            best: (f64::MAX, f64::MAX),
        })
    };
    for (name, text, begins) in EXAMPLES {
        case(What::Answer(begins), name, text);
    }
    for (name, scales, text) in &rows {
        let sheet = front(scales, "G[0,600]p0") + text;
        case(What::Answer("rows="), name, sheet.as_bytes());
        case(What::Sheet, name, sheet.as_bytes());
        case(What::Rows(scales.len()), name, text.as_bytes());
    }
    case(
        What::Answer("rows="),
        "63 nodes, 64 rows",
        (front(&[1], &broad(PARTS)) + &random_rows(random, 64, &[1])).as_bytes(),
    );
    case(What::Answer("refused=1\n"), "refused in the last row", broken.as_bytes());
    case(What::Requirement, "63 nodes", broad(PARTS).as_bytes());
    case(What::Requirement, "63 nodes with marks", broad(MARKED_PARTS).as_bytes());
    case(What::Requirement, "32 enclosings", deep().as_bytes());
    case(What::Requirement, "two nodes", b"G[0,600]p0");
    cases
}

/// Sixteen requirements over 2,048 rows in one sheet, and the sixteen sheets of one requirement each.
struct Sixteen {
    together: Case,
    apart: Vec<String>,
    /// Best times of the library and of plain Rust over all sixteen sheets.
    best: (f64, f64),
}

impl Sixteen {
    fn new() -> Sixteen {
        let rows = random_rows(&mut Random(54321), 2_048, &[1]);
        let text = (front(&[1], &SIXTEEN.join("\nreq=")) + &rows).into_bytes();
        let together = Case {
            what: What::Answer("req="),
            name: "16 requirements, 2,048 rows".to_string(),
            text,
            best: (f64::MAX, f64::MAX),
        };
        let apart = SIXTEEN.iter().map(|requirement| front(&[1], requirement) + &rows).collect();
        Sixteen { together, apart, best: (f64::MAX, f64::MAX) }
    }

    fn time(&mut self, ours: &mut Room, theirs: &mut PlainRoom) {
        self.together.time(ours, theirs);
        let what = What::Answer("rows=");
        assert!(
            self.apart.iter().all(|text| agree(what, text.as_bytes(), ours, theirs)),
            "results differ: a sheet of one requirement"
        );
        for _ in 0..9 {
            let texts = || self.apart.iter().map(|text| black_box(text.as_bytes()));
            self.best.0 = self.best.0.min(seconds(|| {
                black_box(texts().map(|text| proved(what, text, ours)).sum::<u64>());
            }));
            self.best.1 =
                self.best.1.min(seconds(|| texts().for_each(|text| plain(what, text, theirs))));
        }
    }

    fn print(&self) {
        self.together.print();
        let (ours, theirs) =
            (self.together.best.0 / self.best.0, self.together.best.1 / self.best.1);
        println!("16 requirements in one sheet take {ours:.2} times as long as 16 sheets of one; in plain Rust {theirs:.2} times");
    }
}

fn main() {
    let mut cases = cases();
    let mut sixteen = Sixteen::new();
    let mut ours = Room::new();
    let mut theirs =
        PlainRoom { lines: Vec::new(), times: vec![0; 4_096], values: vec![0; 8 * 4_096] };
    // rounds over all cases, so that a slow spell of the machine does not fall on one of them alone
    for _ in 0..5 {
        for case in &mut cases {
            case.time(&mut ours, &mut theirs);
        }
        sixteen.time(&mut ours, &mut theirs);
    }
    cases.iter().for_each(Case::print);
    println!(
        "largest ratio to plain Rust: {:.2}",
        cases.iter().map(Case::ratio).fold(0.0, f64::max)
    );
    sixteen.print();
    println!(
        "ratio of 16 requirements to plain Rust: {:.2} (at most 1.1 wanted)",
        sixteen.together.ratio()
    );
}
