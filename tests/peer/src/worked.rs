//! Every worked number of document 01 as Changes 3, 4 and 5 of document 02 leave it, and the
//! damaged forms that the decisions name.

use crate::answer::answer;
use crate::grammar::{read_requirement, read_tree};
use crate::limits::{NO_END, TOP};
use crate::margin::margin;
use crate::predicate::{distance, Predicate, Predicates, Range, UNSET};
use crate::recording::Recording;
use crate::refusal::Refusal;
use crate::rows::{read_rows, Counts};
use crate::sheet::read_sheet;
use crate::strengthen::Strengthening;
use crate::table::{Node, Table};
use crate::tree::Tree;
use crate::verdict::{verdict, Judgement, Verdict};
use crate::window::Window;

const EXAMPLE: &str = "chan=1\nc=0 scale=1\np=0 ch=0 lo=5 hi=*\nstep=1\ndrift=2\n\
    req=G[0,2]p0\n\
    t=0 src=m v0=10\nt=1 src=m v0=11\nt=2 src=m v0=10\nt=3 src=m v0=9\nt=4 src=m v0=10\n";

pub(crate) fn says(text: &str, line: &str) {
    assert_eq!(String::from_utf8(answer(text.as_bytes())).unwrap(), format!("{line}\n"), "{text}");
}

fn refuses(text: &str, number: u64) {
    says(text, &format!("refused={number}"));
}

/// The example with one part of its text exchanged, which must stand there once.
pub(crate) fn with(old: &str, new: &str) -> String {
    assert_eq!(EXAMPLE.matches(old).count(), 1, "{old:?}");
    EXAMPLE.replace(old, new)
}

fn bench() -> (Predicates, Recording) {
    let mut predicates = [UNSET; 16];
    predicates[0] = Predicate { channel: 0, range: Range::AtLeast(3) };
    predicates[1] = Predicate { channel: 0, range: Range::AtMost(6) };
    let (times, values) = (vec![0, 1, 2, 3], vec![5, 7, 2, 9]);
    let recording = Recording { channels: 1, scales: vec![1], times, values };
    (predicates, recording)
}

pub(crate) fn bench_margin(text: &str) -> i64 {
    let (predicates, recording) = bench();
    let table = read_requirement(text.as_bytes()).unwrap();
    margin(&table, &predicates, &recording, &mut vec![0; table.count() * 4]).unwrap()
}

#[test]
fn k1_to_k8() {
    for (text, wanted) in [
        ("p0", 3),
        ("G[0,3]p0", -1),
        ("F[0,3]p0", 7),
        ("G[4,9]p0", TOP),
        ("F[4,9]p0", -TOP),
        ("p0U[1,2]p1", 3),
        ("p1R[0,2]p0", 2),
        ("!p0", -3),
    ] {
        assert_eq!(bench_margin(text), wanted, "{text}");
    }
}

#[test]
fn k9() {
    for (value, wanted) in [(2, -1), (3, 1), (8, 1), (9, -1)] {
        assert_eq!(distance(Range::Between(3, 8), 1, value), wanted);
    }
}

#[test]
fn the_program_and_k10_to_k13() {
    says(EXAMPLE, "rows=5 filled=0 margin=6 hold=5 fail=-6 verdict=holds");
    refuses(&with("t=2 src=m", "t=2 src=f"), 10);
    says(&with("drift=2", "drift=4"), "rows=5 filled=0 margin=6 hold=5 fail=-6 verdict=holds");
    says(&with("drift=2", "drift=5"), "rows=5 filled=0 margin=6 hold=5 fail=-6 verdict=unshown");
    says(&with("G[0,2]p0", "F[1,3]p0"), "rows=5 filled=0 margin=7 hold=6 fail=-7 verdict=holds");
    says(&with("G[0,2]p0", "F[0,1]p0"), "rows=5 filled=0 margin=7 hold=6 fail=-7 verdict=holds");
}

#[test]
fn faults_to_shut_out() {
    // Until doesn't ask left at j itself: p1 at 0 ends it, where p0 need not hold any more.
    let (mut predicates, recording) = bench();
    predicates[2] = Predicate { channel: 0, range: Range::AtLeast(6) };
    let table = read_requirement(b"p2U[0,0]p0").unwrap();
    assert_eq!(margin(&table, &predicates, &recording, &mut [0; 12]), Ok(3));
    // An empty always window is true.
    assert_eq!(bench_margin("G[4,9]p0"), TOP);
    // "Not" is pushed down before windows change: !F[0,1]p0 is G[0,1]!p0 and expands.
    let tree = read_tree(b"!F[0,1]p0").unwrap();
    let pushed = Strengthening::by(1).strengthened(&tree, false);
    assert_eq!(pushed, read_tree(b"G[0,2]!p0").unwrap());
    // A drift equal to the margin shows nothing.
    says(&with("drift=2", "drift=5"), "rows=5 filled=0 margin=6 hold=5 fail=-6 verdict=unshown");
}

#[test]
fn cells_of_margin_and_verdict() {
    let (predicates, recording) = bench();
    // The root is node 2; node 1 isn't reached and has its cells all the same; node 0 is shared.
    let leaf = node(1, 0, 0, 0, 0);
    let unreached = node(8, 0, 0, 1, 3);
    let root = node(3, 0, 0, 0, 0);
    let table = Table { nodes: vec![leaf, unreached, root] };
    let mut work = [77; 14];
    assert_eq!(margin(&table, &predicates, &recording, &mut work), Ok(3));
    assert_eq!(work, [3, 5, -1, 7, -1, -1, 7, TOP, 3, 5, -1, 7, 77, 77]);
    let mut work = [77; 25];
    let judgement = verdict(&table, &predicates, &recording, 1, 4, &mut work);
    assert_eq!(judgement, Ok(Judgement { verdict: Verdict::NotShown, hold: 3, fail: -3 }));
    assert_eq!(work[..8], [3, 5, -1, 7, -3, -5, 1, -7]);
    assert_eq!(work[8..16], [-1, -1, -1, 7, 1, -7, -TOP, -TOP]);
    assert_eq!(work[16..], [3, 5, -1, 7, -3, -5, 1, -7, 77]);
    assert_eq!(margin(&table, &predicates, &recording, &mut [0; 11]), Err(Refusal::Work));
    // 8 comes before 9.
    let short = verdict(&table, &predicates, &recording, 0, 4, &mut [0; 23]);
    assert_eq!(short, Err(Refusal::Work));
}

#[test]
fn a_shared_table_is_no_tree_of_its_size() {
    let (predicates, recording) = bench();
    let mut nodes = vec![node(1, 0, 0, 0, 0)];
    for k in 1..64 {
        nodes.push(node(3 + k % 2, k - 1, k - 1, 0, 0));
    }
    let table = Table { nodes };
    assert_eq!(margin(&table, &predicates, &recording, &mut [0; 256]), Ok(3));
    assert!(verdict(&table, &predicates, &recording, 1, 4, &mut [0; 512]).is_ok());
}

/// The root's window once the requirement, or its negation, is strengthened by a step of 2.
fn strengthened_window(text: &str, negated: bool) -> Window {
    let tree = read_tree(text.as_bytes()).unwrap();
    match *Strengthening::by(2).strengthened(&tree, negated) {
        Tree::Until(_, window, _) | Tree::Eventually(window, _) => window,
        Tree::Release(_, window, _) | Tree::Always(window, _) => window,
        _ => panic!("{text} has no window"),
    }
}

#[test]
fn windows_after_strengthening() {
    // From now, from 1, from the step, from past it; ends about one step and two.
    for (text, contracted, expanded) in [
        ("[0,0]", (0, Some(-2)), (0, Some(2))),
        ("[0,1]", (0, Some(-1)), (0, Some(3))),
        ("[0,2]", (0, Some(0)), (0, Some(4))),
        ("[0,3]", (0, Some(1)), (0, Some(5))),
        ("[0,*]", (0, None), (0, None)),
        ("[1,1]", (3, Some(-1)), (0, Some(3))),
        ("[1,5]", (3, Some(3)), (0, Some(7))),
        ("[1,*]", (3, None), (0, None)),
        ("[2,2]", (4, Some(0)), (0, Some(4))),
        ("[2,5]", (4, Some(3)), (0, Some(7))),
        ("[2,6]", (4, Some(4)), (0, Some(8))),
        ("[2,*]", (4, None), (0, None)),
        ("[3,3]", (5, Some(1)), (1, Some(5))),
        ("[3,9]", (5, Some(7)), (1, Some(11))),
        ("[5,*]", (7, None), (3, None)),
        // An excluded end is moved first: only an end of 0 that counts is now.
        ("(0,1]", (3, Some(-1)), (0, Some(3))),
        ("[0,1)", (0, Some(-2)), (0, Some(2))),
        ("[0,4)", (0, Some(1)), (0, Some(5))),
        ("(0,6)", (3, Some(3)), (0, Some(7))),
        ("(0,*]", (3, None), (0, None)),
        ("(1,3]", (4, Some(1)), (0, Some(5))),
        ("(2,9)", (5, Some(6)), (1, Some(10))),
        ("(1000000000,*]", (1_000_000_003, None), (999_999_999, None)),
    ] {
        for (left, letter, contracts) in
            [("", "F", true), ("p1", "U", true), ("", "G", false), ("p1", "R", false)]
        {
            let requirement = format!("{left}{letter}{text}p0");
            for negated in [false, true] {
                let (lo, hi) = if contracts != negated { contracted } else { expanded };
                let window = strengthened_window(&requirement, negated);
                assert_eq!(window, Window::closed(lo, hi), "{requirement}, negated: {negated}");
            }
        }
    }
}

/// Windows from now on either side of the step: one that ends before it is empty, and no clamp makes
/// it the sample itself.
#[test]
fn windows_from_now_over_the_example() {
    let unshown = format!("hold=-{TOP} fail=-7 verdict=unshown");
    for (step, text, margin, rest) in [
        ("step=1", "F[0,0]p0", 6, &unshown[..]),
        ("step=1", "TU[0,0]p0", 6, &unshown),
        ("step=2", "F[0,1]p0", 7, &unshown),
        ("step=2", "F[0,2]p0", 7, "hold=6 fail=-7 verdict=holds"),
        ("step=2", "F[0,3]p0", 7, "hold=7 fail=-7 verdict=holds"),
        ("step=2", "p0U[0,3]p0", 6, "hold=6 fail=-6 verdict=holds"),
        ("step=1", "F[0,*]p0", 7, "hold=7 fail=-7 verdict=holds"),
        ("step=1", "F[1,2]p0", 7, &unshown),
    ] {
        let sheet = with("G[0,2]p0", text).replace("step=1", step);
        says(&sheet, &format!("rows=5 filled=0 margin={margin} {rest}"));
    }
}

#[test]
fn refusal_of_requirement_text() {
    let nested = |count| format!("{}p0{}", "(".repeat(count), ")".repeat(count));
    let nots = |count| format!("{}p0", "!".repeat(count));
    let ors = |count| vec!["p0"; count].join("|");
    for text in [
        "", " ", "p0 ", "p0\r", "p0\0", "p", "p01", "p16", "p155", "P0", "t", "TT", "p0p1", "p0&",
        "|p0", "p0||p1", "G[00,1]p0", "G[5,2]p0", "G[0,4294967295]p0", "G[1000000001,*]p0",
        "G[0,1000000001]p0", "G[0,1]", "G[0,1p0", "G{0,1]p0", "G[*,1]p0", "G[,1]p0", "G[0,]p0",
        "G[-1,1]p0", "G[0, 1]p0", "G[0,01]p0", "Gp0", "p0Up1", "p0U[0,1]p1U[0,1]p2",
        "p0R[0,1]p1U[0,1]p2", "()", "(p0", "p0)", "(p0))", "!", "!!", "p0!p1", "p0U[0,1]p1|",
        "G[0,99999999999999999999999]p0",
    ] {
        refuses(&with("req=G[0,2]p0", &format!("req={text}")), 2);
    }
    for text in [nested(33), nots(33), ors(33), format!("G[0,1]{}", nots(32))] {
        assert_eq!(read_requirement(text.as_bytes()), Err(Refusal::Requirement), "{text}");
    }
    for text in [nested(32), nots(32), ors(32), format!("{}|{}", nested(32), nots(16))] {
        assert!(read_requirement(text.as_bytes()).is_ok(), "{text}");
    }
    // U and R count no enclosing and don't reset them.
    assert!(read_requirement(format!("{}U[0,1]T", nots(32)).as_bytes()).is_ok());
    let inside = format!("{}(TU[0,1]!p0)", "!".repeat(31));
    assert_eq!(read_requirement(inside.as_bytes()), Err(Refusal::Requirement));
    // 64 nodes pass: 32 leaves, 31 ors and one not. A 65th doesn't.
    assert_eq!(read_requirement(format!("!{}", ors(32)).as_bytes()).unwrap().count(), 64);
    assert_eq!(read_requirement(format!("!!{}", ors(32)).as_bytes()), Err(Refusal::Requirement));
}

#[test]
fn reading_of_requirement_text() {
    let same = |text: &str, other: &str| {
        assert_eq!(
            read_requirement(text.as_bytes()).unwrap(),
            read_requirement(other.as_bytes()).unwrap(),
            "{text} {other}"
        );
    };
    same("!p0U[0,1]p1", "(!p0)U[0,1]p1");
    same("G[0,1]p0U[0,1]p1", "(G[0,1]p0)U[0,1]p1");
    same("p0&p1U[0,1]p2", "p0&(p1U[0,1]p2)");
    same("p0|p1&p2", "p0|(p1&p2)");
    same("p0|p1|p2", "(p0|p1)|p2");
    same("p0&p1&p2", "(p0&p1)&p2");
    same("p0U[0,1]!p1", "p0U[0,1](!p1)");
    let table = read_requirement(b"p2U[1,*](T|!p15)&F[0,1000000000]p0").unwrap();
    assert_eq!(
        table.nodes,
        [
            node(1, 2, 0, 0, 0),
            node(0, 0, 0, 0, 0),
            node(1, 15, 0, 0, 0),
            node(2, 2, 0, 0, 0),
            node(4, 1, 3, 0, 0),
            node(5, 0, 4, 1, NO_END),
            node(1, 0, 0, 0, 0),
            node(7, 6, 0, 0, 1_000_000_000),
            node(3, 5, 7, 0, 0),
        ]
    );
}

/// What of the example is replaced by what, so that a line breaks the text form.
const BREAKS: &[(&str, &str)] = &[
    ("chan=1", "chan=01"),
    ("chan=1", "chan=-1"),
    ("chan=1", "chan=4294967296"),
    ("chan=1", "chan= 1"),
    ("chan=1", "Chan=1"),
    ("chan=1\n", ""),
    ("chan=1", "chan=0"),
    ("chan=1", "chan=2"),
    ("chan=1", "chan=9"),
    ("c=0 scale=1\n", ""),
    ("c=0 scale=1\n", "c=0 scale=1\nc=0 scale=1\n"),
    ("c=0 scale=1\n", "c=0 scale=1\nc=1 scale=1\n"),
    ("chan=1\nc=0 scale=1\n", "c=0 scale=1\nchan=1\n"),
    ("c=0 scale=1\np=0 ch=0 lo=5 hi=*\n", "p=0 ch=0 lo=5 hi=*\nc=0 scale=1\n"),
    ("c=0 ", "c=1 "),
    ("c=0 ", "c=00 "),
    ("c=0 ", "c=-0 "),
    ("c=0 ", "ch=0 "),
    ("c=0 scale", "c=0  scale"),
    ("c=0 scale=1", "scale=1 c=0"),
    ("c=0 scale=1", "c=0"),
    ("c=0 scale=1", "scale=1"),
    ("scale=1", "scale="),
    ("scale=1", "scale=01"),
    ("scale=1", "scale=-1"),
    ("scale=1", "scale=*"),
    ("scale=1", "scale=1 "),
    ("scale=1", "scale=4294967296"),
    ("scale=1", "scale=10000000000"),
    ("p=0 ", "p=16 "),
    ("p=0 ", "p=00 "),
    ("p=0 ", "p=0  "),
    ("ch=0", "ch=-0"),
    ("lo=5", "lo=2147483648"),
    ("lo=5", "lo=-2147483648"),
    ("lo=5", "lo=-0"),
    ("lo=5", "lo=05"),
    ("lo=5", "lo=00000000005"),
    ("hi=*", "hi="),
    ("hi=*", "hi=* "),
    ("p=0 ch=0 lo=5 hi=*\n", "p=0 ch=0 lo=5 hi=*\np=0 ch=0 lo=5 hi=*\n"),
    ("p=0 ch=0 lo=5 hi=*\n", "p=1 ch=0 lo=5 hi=*\np=0 ch=0 lo=5 hi=*\n"),
    ("p=0 ch=0 lo=5 hi=*\n", "p=15 ch=0 lo=* hi=*\np=0 ch=0 lo=5 hi=*\n"),
    ("hi=*\n", "hi=*\np=9 ch=0 lo=5 hi=*\np=8 ch=0 lo=5 hi=*\n"),
    ("step=1\n", ""),
    ("step=1\n", "step=-1\n"),
    ("step=1\n", "step=*\n"),
    ("drift=2\n", ""),
    ("drift=2\n", "drift=2\ndrift=2\n"),
    ("req=", "rec="),
    ("req=G[0,2]p0\n", ""),
    ("t=1 src=m", "req=G[0,2]p0\nt=1 src=m"),
    ("t=0 ", "t=4294967296 "),
    ("t=0 ", "t=-0 "),
    ("t=0 ", "t=+0 "),
    ("t=2 src=m", "t=2 src=g"),
    ("t=2 src=m", "t=2 src=mm"),
    ("t=2 src=m", "t=2 src="),
    ("t=2 src=m", "src=m t=2"),
    ("v0=11", "v1=11"),
    ("v0=11", "v0=11 v1=3"),
    ("v0=11", "v0=-0"),
    ("v0=11", "v0=-"),
    ("v0=11", "v0=2147483648"),
    (" v0=11", ""),
    ("v0=11", "v0=11 "),
    // The text of a filled row is judged too.
    ("t=2 src=m", "t=4294967296 src=f"),
];

#[test]
fn refusal_1() {
    for text in ["", "\n", "chan=1", "chan=1\n", "chan=1\r\n", "chan=1\nc=0 scale=1\n"] {
        refuses(text, 1);
    }
    refuses(&EXAMPLE.replace('\n', "\r\n"), 1);
    refuses(EXAMPLE.strip_suffix('\n').unwrap(), 1);
    refuses(&format!("{EXAMPLE}\n"), 1);
    refuses(&format!("\n{EXAMPLE}"), 1);
    for &(old, new) in BREAKS {
        refuses(&with(old, new), 1);
    }
}

#[test]
fn refusals_2_to_13_by_meaning() {
    for (old, new, number) in [
        ("req=G[0,2]p0", "req=", 2),
        // Without its line feed the line runs on; the next one's bytes are requirement text.
        ("req=G[0,2]p0\n", "req=G[0,2]p0", 2),
        ("G[0,2]p0", "p1", 3),
        ("chan=1\nc=0 scale=1\n", "chan=0\n", 4),
        ("chan=1\nc=0 scale=1\n", "chan=9\n", 4),
        ("chan=1\nc=0 scale=1\n", "chan=4294967295\n", 4),
        ("ch=0", "ch=1", 4),
        ("lo=5 hi=*", "lo=5 hi=4", 4),
        ("lo=5", "lo=1000000001", 4),
        ("hi=*", "hi=-1000000001", 4),
        // A free predicate's channel is judged; so is a predicate that no node names.
        ("hi=*", "hi=*\np=9 ch=1 lo=* hi=*", 4),
        ("scale=1", "scale=0", 13),
        ("scale=1", "scale=1001", 13),
        ("scale=1", "scale=4294967295", 13),
        ("t=1 ", "t=0 ", 6),
        ("t=1 ", "t=2000000001 ", 6),
        ("v0=11", "v0=1000000001", 7),
        ("v0=11", "v0=-1000000001", 7),
        ("step=1\n", "step=0\n", 9),
        ("step=1\n", "step=1000000001\n", 9),
        ("drift=2", "drift=1000000001", 9),
        ("t=4 ", "t=5 ", 10),
        ("v0=11", "v0=15", 11),
        ("drift=2", "drift=0", 11),
    ] {
        refuses(&with(old, new), number);
    }
    let front = &EXAMPLE[..EXAMPLE.find("t=0").unwrap()];
    refuses(front, 5);
    refuses(&format!("{front}t=0 src=f v0=1\n"), 5);
    says(
        &format!("{front}t=0 src=m v0=10\n"),
        "rows=1 filled=0 margin=6 hold=6 fail=-6 verdict=holds",
    );
}

#[test]
fn the_order_over_the_whole_program() {
    let broken_row = |text: String| format!("{text}t=9 src=m\n");
    for (old, new) in
        [("G[0,2]p0", "p99"), ("G[0,2]p0", "p1"), ("ch=0", "ch=1"), ("step=1\n", "step=0\n")]
    {
        refuses(&broken_row(with(old, new)), 1);
    }
    // Rows of a bad width are unread, whatever stands there; what is before them isn't.
    let unread = |front: &str| format!("{front}junk\r\nreq=T\nno line feed");
    refuses(&unread("chan=9\nstep=0\ndrift=0\nreq=T\n"), 4);
    refuses(&unread("chan=0\nstep=0\ndrift=0\nreq=p0\n"), 3);
    refuses(&unread("chan=0\nstep=0\ndrift=0\nreq=p0 \n"), 2);
    refuses(&unread("chan=0\nstep=00\ndrift=0\nreq=T\n"), 1);
    refuses("chan=0\nstep=0\ndrift=0\nreq=T", 1);
    // More measured rows than room: 1, 2, 3, 4 and 13 still come first.
    let many: String = (0..2049).map(|t| format!("t={t} src=m v0=0\n")).collect();
    let front = |req: &str| {
        format!("chan=1\nc=0 scale=1\np=0 ch=0 lo=5 hi=*\nstep=0\ndrift=0\nreq={req}\n")
    };
    refuses(&format!("{}{many}", front("T")), 5);
    refuses(&format!("{}{many}", front("p1")), 3);
    refuses(&format!("{}{many}", front("")), 2);
    refuses(&format!("{}{many}junk\n", front("T")), 1);
    let scale = front("T").replace("scale=1", "scale=0");
    refuses(&format!("{scale}{many}"), 13);
    let bad = scale.replace("ch=0", "ch=1");
    refuses(&format!("{bad}{many}"), 4);
}

#[test]
fn limits_of_the_program() {
    let rows =
        |count: usize| -> String { (0..count).map(|t| format!("t={t} src=m v0=0\n")).collect() };
    let sheet = |req: &str, count| {
        let front = "chan=1\nc=0 scale=1\np=0 ch=0 lo=0 hi=*\nstep=1\ndrift=0\n";
        format!("{front}req={req}\n{}", rows(count))
    };
    says(
        &sheet("T", 2048),
        &format!("rows=2048 filled=0 margin={TOP} hold={TOP} fail=-{TOP} verdict=holds"),
    );
    says(&sheet("!p0", 2048), "rows=2048 filled=0 margin=-1 hold=-1 fail=1 verdict=fails");
    refuses(&sheet("T", 2049), 5);
    says(&sheet("p0|p0", 1365), "rows=1365 filled=0 margin=1 hold=1 fail=-1 verdict=holds");
    // The margin alone would fit into 8,192 cells; the verdict doesn't.
    refuses(&sheet("p0|p0", 1366), 8);
    let filled: String = "t=0 src=f v0=0\n".repeat(2500);
    says(
        &(sheet("T", 3) + &filled),
        &format!("rows=3 filled=2500 margin={TOP} hold={TOP} fail=-{TOP} verdict=holds"),
    );
    let front = "chan=0\nstep=1\ndrift=0\nreq=T\n";
    let padded = |length: usize| format!("{front}{}", "x".repeat(length - front.len()));
    refuses(&padded(65_536), 4);
    refuses(&padded(65_537), 1);
}

#[test]
fn filled_rows_reach_no_answer() {
    let filled = "t=4294967295 src=f v0=-2147483647\n";
    says(
        &with("t=2 src=m", &format!("{filled}t=2 src=m")),
        "rows=5 filled=1 margin=6 hold=5 fail=-6 verdict=holds",
    );
}

#[test]
fn the_sheet_reader() {
    let sheet = read_sheet(EXAMPLE.as_bytes()).unwrap();
    assert_eq!(sheet.requirements.len(), 1);
    assert_eq!(&EXAMPLE[sheet.requirements[0].clone()], "G[0,2]p0");
    assert!(EXAMPLE[sheet.rows_from..].starts_with("t=0 "));
    assert_eq!((sheet.channels, sheet.step, sheet.drift), (1, 1, 2));
    assert_eq!(sheet.scales, [1]);
    let four = "chan=9\np=1 ch=0 lo=* hi=-4\np=3 ch=7 lo=* hi=*\np=15 ch=4294967295 lo=9 hi=-9\nstep=4294967295\ndrift=0\nreq=\n";
    let sheet = read_sheet(four.as_bytes()).unwrap();
    assert_eq!(sheet.scales, []);
    assert_eq!(sheet.predicates[1], Predicate { channel: 0, range: Range::AtMost(-4) });
    assert_eq!(sheet.predicates[3], Predicate { channel: 7, range: Range::Free });
    assert_eq!(
        sheet.predicates[15],
        Predicate { channel: 4_294_967_295, range: Range::Between(9, -9) }
    );
    assert_eq!(sheet.requirements, [four.len() - 1..four.len() - 1]);
}

#[test]
fn predicates_by_rising_number() {
    // Every number has its own end, so that the margin shows which line was read as which.
    let sheet = |numbers: &[i64], requirement: &str| {
        let line = |number| format!("p={number} ch=0 lo={} hi=*\n", 10 - number);
        let lines: String = numbers.iter().map(line).collect();
        with("p=0 ch=0 lo=5 hi=*\n", &lines).replace("G[0,2]p0", requirement)
    };
    let margin = |margin| {
        format!("rows=5 filled=0 margin={margin} hold={margin} fail=-{margin} verdict=holds")
    };
    for (number, distance) in [(2, 3), (5, 6), (11, 12)] {
        says(&sheet(&[2, 5, 11], &format!("p{number}")), &margin(distance));
    }
    for unordered in [[2, 11, 5], [5, 2, 11], [5, 11, 2], [11, 2, 5], [11, 5, 2]] {
        refuses(&sheet(&unordered, "p2"), 1);
    }
    says(&sheet(&[], "T"), &margin(TOP));
    says(&sheet(&[0, 15], "p15"), &margin(16));
    refuses(&sheet(&[15, 0], "p15"), 1);
    refuses(&sheet(&[5, 5], "p5"), 1);
    refuses(&sheet(&[2, 5, 5], "p5"), 1);
    // Also where the rows are unread.
    let unread =
        |numbers: &[i64]| sheet(numbers, "p2").replace("chan=1\nc=0 scale=1\n", "chan=9\n");
    refuses(&unread(&[2, 5]), 4);
    refuses(&unread(&[5, 2]), 1);
}

#[test]
fn the_row_reader() {
    let text = b"t=7 src=m v0=1 v1=-2\nt=4294967295 src=f v0=5 v1=6\nt=3 src=m v0=3 v1=4\n";
    let read = |channels, times: usize, values: usize| {
        let (mut times, mut values) = (vec![9; times], vec![9; values]);
        (read_rows(text, channels, &mut times, &mut values), times, values)
    };
    let counts = Ok(Counts { measured: 2, filled: 1 });
    assert_eq!(read(2, 3, 5), (counts, vec![7, 3, 9], vec![1, -2, 3, 4, 9]));
    assert_eq!(read(2, 1, 5), (Err(Refusal::Samples), vec![9], vec![9; 5]));
    assert_eq!(read(2, 3, 3), (Err(Refusal::Samples), vec![9; 3], vec![9; 3]));
    assert_eq!(read(1, 3, 5).0, Err(Refusal::Text));
    assert_eq!(read(0, 3, 5).0, Err(Refusal::Predicates));
    assert_eq!(read(9, 3, 5).0, Err(Refusal::Predicates));
    assert_eq!(read_rows(b"", 8, &mut [], &mut []), Ok(Counts { measured: 0, filled: 0 }));
    assert_eq!(read_rows(&[b'x'; 65_537], 0, &mut [], &mut []), Err(Refusal::Text));
    assert_eq!(read_rows(&[b'x'; 65_536], 0, &mut [], &mut []), Err(Refusal::Predicates));
    let many = "t=0 src=m v0=0\n".repeat(4097);
    let (mut times, mut values) = (vec![0; 5000], vec![0; 5000]);
    assert_eq!(read_rows(many.as_bytes(), 1, &mut times, &mut values), Err(Refusal::Samples));
    let fits = &many.as_bytes()[15..];
    assert_eq!(read_rows(fits, 1, &mut times, &mut values).unwrap().measured, 4096);
}

const fn node(kind: u64, left: u64, right: u64, lo: u64, hi: u64) -> Node {
    Node { kind, left, right, lo, hi, open_lo: 0, open_hi: 0 }
}

/// Nodes that break a table rule, wherever in a table they stand.
const BROKEN: &[Node] = &[
    node(0, 1, 0, 0, 0),
    node(0, 0, 0, 0, 1),
    node(1, 2, 0, 0, 0),
    node(1, 16, 0, 0, 0),
    node(1, 0, 1, 0, 0),
    node(1, u64::MAX, 0, 0, 0),
    node(2, 1, 0, 0, 0),
    node(2, 0, 0, 1, 1),
    node(3, 0, 1, 0, 0),
    node(4, 0, 0, 0, 5),
    node(5, 0, 0, 2, 1),
    node(5, 0, 0, 0, 1_000_000_001),
    node(6, 0, 0, 1_000_000_001, NO_END),
    node(6, 0, 0, 0, NO_END - 1),
    node(6, 0, 0, 0, NO_END + 1),
    node(7, 0, 1, 0, 0),
    node(8, 1, 0, 0, 0),
    node(9, 0, 0, 0, 0),
    node(u64::MAX, 0, 0, 0, 0),
];

#[test]
fn table_rules() {
    let (predicates, _) = bench();
    let broken = |nodes: &[Node]| Table { nodes: nodes.to_vec() }.broken(&predicates);
    let leaf = node(0, 0, 0, 0, 0);
    assert!(broken(&[]));
    assert!(!broken(&[leaf; 64]));
    assert!(broken(&[leaf; 65]));
    for &bad in BROKEN {
        assert!(broken(&[leaf, bad]), "{bad:?}");
        // Also where the root doesn't reach it.
        assert!(broken(&[leaf, bad, leaf]), "{bad:?}");
        assert!(broken(&[bad]), "{bad:?}");
    }
    for good in [
        node(1, 0, 0, 0, 0),
        node(5, 0, 0, 0, 0),
        node(6, 0, 0, 1_000_000_000, NO_END),
        node(8, 0, 0, 7, 7),
    ] {
        assert!(!broken(&[leaf, good]), "{good:?}");
    }
}
