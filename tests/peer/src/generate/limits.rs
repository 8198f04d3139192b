//! Sheets at and one past each limit, each with the lines that the program must print.

use super::draft::{Draft, PredicateLine};
use super::scale_limits;
use crate::limits::TOP;
use crate::rows::Row;

pub struct Limit {
    pub name: String,
    pub text: Vec<u8>,
    pub printed: String,
}

/// Rows one second apart, all values 0; predicate 0 is at least 0, so its margin is 1.
pub(super) fn draft(channels: u64, rows: usize, requirement: &str) -> Draft {
    let values = vec![0; channels as usize];
    let row = |time| Row { time: time as u64, measured: true, values: values.clone() };
    Draft {
        channels,
        scales: vec![1; channels as usize],
        predicates: vec![PredicateLine { number: 0, channel: 0, lo: Some(0), hi: None }],
        step: 1,
        drift: 0,
        requirements: vec![requirement.as_bytes().to_vec()],
        rows: (0..rows).map(row).collect(),
    }
}

/// A count of channels that is not 1 to 8: no `c=` line is due and no row is read.
fn without_channels(channels: u64, mut draft: Draft) -> Draft {
    draft.break_channels(channels);
    draft.rows.clear();
    draft
}

pub(super) fn holds(rows: usize, filled: usize) -> String {
    format!("rows={rows} filled={filled} margin=1 hold=1 fail=-1 verdict=holds\n")
}

/// The negation's windows are empty once contracted.
fn holds_without_fail(rows: usize) -> String {
    format!("rows={rows} filled=0 margin=1 hold=1 fail=-4000000000000 verdict=holds\n")
}

pub(super) fn refused(number: u64) -> String {
    format!("refused={number}\n")
}

pub(super) fn limit(name: &str, draft: Draft, printed: String) -> Limit {
    Limit { name: name.to_string(), text: draft.text(), printed }
}

/// `p0` joined so many times.
fn joined(count: usize) -> String {
    vec!["p0"; count].join("&")
}

pub fn limits() -> Vec<Limit> {
    let mut limits = rows_and_cells();
    limits.extend(scale_limits::limits());
    limits.extend(predicate_orders());
    limits.extend(predicates_before_others());
    limits.extend(requirement_sizes());
    limits.extend(excluded_ends());
    limits.extend(requirement_counts());
    limits.extend(requirement_lines());
    limits.extend(text_sizes());
    limits
}

fn rows_and_cells() -> Vec<Limit> {
    let mut limits = vec![
        limit("2,048 rows", draft(1, 2_048, "p0"), holds(2_048, 0)),
        limit("2,049 rows", draft(1, 2_049, "p0"), refused(5)),
        limit("2,048 rows, 8,192 cells", two_nodes(2_048), holds(2_048, 0)),
        limit("64 nodes, 64 rows: 8,192 cells", draft(2, 64, &sixty_four()), holds(64, 0)),
        limit("64 nodes, 65 rows", draft(2, 65, &sixty_four()), refused(8)),
        limit("63 nodes, 65 rows: 8,190 cells", draft(8, 65, &joined(32)), holds(65, 0)),
        limit("63 nodes, 66 rows", draft(8, 66, &joined(32)), refused(8)),
        limit("3 nodes, 1,365 rows", draft(1, 1_365, "p0&p0"), holds(1_365, 0)),
        limit("3 nodes, 1,366 rows", draft(1, 1_366, "p0&p0"), refused(8)),
        limit("always over 2,048 rows", draft(1, 2_048, "G[0,*]p0"), holds(2_048, 0)),
        limit("until over 1,365 rows", draft(1, 1_365, "p0U[5,99]p0"), holds(1_365, 0)),
        limit("release over 1,365 rows", draft(1, 1_365, "p0R[0,99]p0"), holds(1_365, 0)),
        limit("endless until over 600 rows", draft(1, 600, "p0U[5,*]p0"), holds(600, 0)),
        limit("endless release over 600 rows", draft(1, 600, "p0R[0,*]p0"), holds(600, 0)),
        limit("3 nodes, 2,049 rows: 5 before 8", draft(1, 2_049, "p0&p0"), refused(5)),
    ];
    let mut many_filled = draft(1, 2_048, "p0");
    let row = Row { time: 7, measured: false, values: vec![-5] };
    many_filled.rows.extend(vec![row; 1_000]);
    limits.push(limit("filled rows take no room", many_filled, holds(2_048, 1_000)));
    limits
}

/// `p=` lines with these numbers, in this order.
fn numbered(numbers: &str, requirement: &str) -> Draft {
    let number = |word: &str| word.parse().expect("a predicate's number");
    let line = |word| PredicateLine { number: number(word), channel: 0, lo: Some(0), hi: None };
    Draft { predicates: numbers.split_whitespace().map(line).collect(), ..draft(1, 3, requirement) }
}

/// "`p=` lines stand by rising number": every order of three, numbers side by side and with gaps,
/// equal neighbours, all sixteen and one more. Every number that has a line is named.
fn predicate_orders() -> Vec<Limit> {
    let all = "0 1 2 3 4 5 6 7 8 9 10 11 12 13 14 15";
    let falling = "15 14 13 12 11 10 9 8 7 6 5 4 3 2 1 0";
    let one_more = ["0", "8", "15"].map(|number| format!("{all} {number}"));
    let rising = ["3 7 12", "0", "15", "0 1", "14 15", "0 15", "0 1 15", all];
    let mut others = vec![
        "3 12 7", "7 3 12", "7 12 3", "12 3 7", "12 7 3", "0 0", "7 7", "15 15", "3 3 7", "3 7 7",
        "3 7 3", "1 0", "15 14", "15 0", "0 15 1", "0 2 1 3", "0 1 1 2", falling,
    ];
    others.extend(one_more.iter().map(String::as_str));
    let sheet = |numbers: &str, printed| {
        let named = format!("p{}", numbers.replace(' ', "&p"));
        limit(&format!("predicates {numbers}"), numbered(numbers, &named), printed)
    };
    let mut limits: Vec<Limit> = rising.iter().map(|numbers| sheet(numbers, holds(3, 0))).collect();
    limits.extend(others.iter().map(|numbers| sheet(numbers, refused(1))));
    limits
}

/// An order that breaks the text form comes before every other number, also where rows are unread.
fn predicates_before_others() -> Vec<Limit> {
    let unread = |numbers| without_channels(9, numbered(numbers, "p1"));
    let seventeen = vec![b"p1".to_vec(); 17];
    let crowded = |numbers| Draft { requirements: seventeen.clone(), ..numbered(numbers, "") };
    vec![
        limit("no predicate, one named", numbered("", "p0"), refused(3)),
        limit("rising predicates, a bad requirement", numbered("0 1", "p"), refused(2)),
        limit("falling predicates, a bad requirement", numbered("1 0", "p"), refused(1)),
        limit("rising predicates, 17 requirements", crowded("0 1"), refused(12)),
        limit("falling predicates, 17 requirements", crowded("1 0"), refused(1)),
        limit("rising predicates, unread rows", unread("0 1"), refused(4)),
        limit("falling predicates, unread rows", unread("1 0"), refused(1)),
        limit("equal predicates, unread rows", unread("1 1"), refused(1)),
    ]
}

/// A requirement of two nodes whose margin is 1: not at most −1.
fn two_nodes(rows: usize) -> Draft {
    let mut draft = draft(1, rows, "!p0");
    draft.predicates[0].lo = None;
    draft.predicates[0].hi = Some(-1);
    draft
}

/// 64 nodes: 31 leaves and 30 operators, one operator more, always and its leaf.
pub(super) fn sixty_four() -> String {
    format!("{}&G[0,0]p0", joined(31))
}

fn requirement_sizes() -> Vec<Limit> {
    let wrapped = |count: usize| format!("{}p0{}", "(".repeat(count), ")".repeat(count));
    let nots = |count: usize| format!("{}p0", "!".repeat(count));
    let mixed = |count: usize| format!("{}p0", "G[0,0]!!".repeat(count));
    let either = |count: usize| format!("{}&{}", wrapped(count), wrapped(count));
    vec![
        limit("32 parentheses", draft(1, 2, &wrapped(32)), holds(2, 0)),
        limit("33 parentheses", draft(1, 2, &wrapped(33)), refused(2)),
        limit("32 nots", draft(1, 2, &nots(32)), holds(2, 0)),
        limit("33 nots", draft(1, 2, &nots(33)), refused(2)),
        limit("30 enclosings of three kinds", draft(1, 2, &mixed(10)), holds_without_fail(2)),
        limit("33 enclosings of three kinds", draft(1, 2, &mixed(11)), refused(2)),
        limit("siblings don't add", draft(1, 2, &either(32)), holds(2, 0)),
        limit("a sibling too deep", draft(1, 2, &either(33)), refused(2)),
        limit(
            "an enclosing right of until",
            draft(1, 2, &format!("(TU[0,0]{})", nots(32))),
            refused(2),
        ),
        limit("63 nodes", draft(1, 2, &joined(32)), holds(2, 0)),
        limit("64 nodes", draft(1, 2, &sixty_four()), holds(2, 0)),
        limit("65 nodes", draft(1, 2, &joined(33)), refused(2)),
        limit("20,000 nodes", draft(1, 2, &joined(20_000)), refused(2)),
        limit("60,000 parentheses", draft(1, 2, &"(".repeat(60_000)), refused(2)),
        limit("60,000 nots", draft(1, 2, &"!".repeat(60_000)), refused(2)),
        limit("60,000 digits", draft(1, 2, &format!("G[0,{}]p0", "1".repeat(60_000))), refused(2)),
    ]
}

/// Windows without their ends: at 5 and 6, from 0, at the limit, and inside 32 and 33 enclosings.
fn excluded_ends() -> Vec<Limit> {
    let line = |figures: String| format!("rows=3 filled=0 {figures}\n");
    let unshown = line(format!("margin=1 hold=-{TOP} fail=-1 verdict=unshown"));
    let past = line(format!("margin=-{TOP} hold=-{TOP} fail={TOP} verdict=fails"));
    let kept = line(format!("margin={TOP} hold={TOP} fail=-{TOP} verdict=holds"));
    let deep = line(format!("margin={TOP} hold=1 fail=-{TOP} verdict=holds"));
    let nots = |count: usize| format!("{}G(0,2)(p0)", "!".repeat(count));
    let opened = |count: usize| format!("{}p0", "G(0,2)".repeat(count));
    let mut limits: Vec<(&str, String)> = [
        "F(5,5]p0", "F[5,5)p0", "F(5,6)p0", "F(5,5)p0", "F[0,*)p0", "F(0,*)p0", "F[0,0)p0",
        "F(0,1)p0", "F[1000000000,1000000000)p0", "F(1000000001,*]p0", "F[0,1000000001)p0",
        "F (0,1]p0", "F(p0)", "F(0,1](p0", "F((0,1]p0)",
    ]
    .map(|text| (text, refused(2)))
    .into();
    limits.extend([
        ("F(5,6]p0", past.clone()),
        ("F[5,6)p0", past.clone()),
        ("F(1000000000,*]p0", past),
        ("G(1000000000,*]p0", kept),
        ("F(0,1](p0)", unshown.clone()),
        ("p0U(0,2)p0", unshown),
        ("F[0,2)p0", holds(3, 0)),
        ("p0U[0,2)p0", holds(3, 0)),
        ("G(0,2)p0", holds_without_fail(3)),
        ("p0R(0,1]p0", holds_without_fail(3)),
    ]);
    let enclosed = [
        (nots(30), holds_without_fail(3)),
        (nots(31), refused(2)),
        (opened(32), deep),
        (opened(33), refused(2)),
    ];
    let all = limits.into_iter().map(|(text, line)| (text.to_string(), line)).chain(enclosed);
    all.map(|(text, line)| limit(&text, draft(1, 3, &text), line)).collect()
}

/// A sheet with these requirements over so many rows.
pub(super) fn several(rows: usize, requirements: &[&str]) -> Draft {
    let texts = requirements.iter().map(|text| text.as_bytes().to_vec()).collect();
    Draft { requirements: texts, ..draft(1, rows, "") }
}

/// The line of each of so many requirements, by its number.
pub(super) fn each(count: usize, line: impl Fn(usize) -> String) -> String {
    (0..count).map(|k| format!("req={k} {}", line(k))).collect()
}

fn requirement_counts() -> Vec<Limit> {
    let many = |count: usize, requirement: &str| several(2, &vec![requirement; count]);
    let holding = |count| each(count, |_| holds(2, 0));
    let mut one_bad = many(17, "p0");
    one_bad.requirements[16] = b"p".to_vec();
    let unread = |count| without_channels(0, many(count, "T"));
    // Long lines: all three margins are −TOP, every row but one is filled.
    let mut longest = several(1, &["F[1,1]T"; 16]);
    let row = Row { time: 0, measured: false, values: vec![0] };
    longest.rows.extend(vec![row; 4_000]);
    let missed = "rows=1 filled=4000 margin=-4000000000000 hold=-4000000000000 \
        fail=-4000000000000 verdict=unshown\n";
    vec![
        limit("one requirement", many(1, "p0"), holds(2, 0)),
        limit("2 requirements", many(2, "p0"), holding(2)),
        limit("15 requirements", many(15, "p0"), holding(15)),
        limit("16 requirements", many(16, "p0"), holding(16)),
        limit("17 requirements", many(17, "p0"), refused(12)),
        limit("18 requirements", many(18, "p0"), refused(12)),
        limit("10,000 requirements", many(10_000, "T"), refused(12)),
        limit("17 requirements, one bad", one_bad, refused(12)),
        limit("17 bad requirements", many(17, ""), refused(12)),
        limit("16 bad requirements", many(16, ""), each(16, |_| refused(2))),
        limit("16 requirements, unread rows", unread(16), each(16, |_| refused(4))),
        limit("17 requirements, unread rows", unread(17), refused(12)),
        limit("16 long lines", longest, each(16, |_| missed.to_string())),
        limit(
            "16 requirements of 4,032 bytes",
            many(16, &format!("{}p0", "!".repeat(4_030))),
            each(16, |_| refused(2)),
        ),
        limit(
            "16 requirements, 2,048 rows",
            several(2_048, &["G[0,*]p0"; 16]),
            each(16, |_| holds(2_048, 0)),
        ),
        limit("16 requirements, 2,049 rows", several(2_049, &["p0"; 16]), each(16, |_| refused(5))),
    ]
}

fn requirement_lines() -> Vec<Limit> {
    let whole = |count| several(2, &vec!["p0"; count]).text();
    let unread = |count| without_channels(9, several(2, &vec!["T"; count]));
    // Without the rows, and without the last line feed.
    let cut = |draft: Draft| {
        let mut text = Draft { rows: Vec::new(), ..draft }.text();
        text.pop();
        text
    };
    let behind = |mut text: Vec<u8>, bytes: &[u8]| {
        text.extend(bytes);
        text
    };
    let text = |name: &str, text, printed| Limit { name: name.to_string(), text, printed };
    let mixed = several(2, &["p0", "p1", "!p0", "p0&p0", "", "!!p0", "F[0,9]!p0", "p0"]);
    let order = "req=2 rows=2 filled=0 margin=-1 hold=-1 fail=1 verdict=fails\n\
        req=6 rows=2 filled=0 margin=-1 hold=-1 fail=1 verdict=fails\n\
        req=0 rows=2 filled=0 margin=1 hold=1 fail=-1 verdict=holds\n\
        req=3 rows=2 filled=0 margin=1 hold=1 fail=-1 verdict=holds\n\
        req=5 rows=2 filled=0 margin=1 hold=1 fail=-1 verdict=holds\n\
        req=7 rows=2 filled=0 margin=1 hold=1 fail=-1 verdict=holds\n\
        req=1 refused=3\nreq=4 refused=2\n";
    vec![
        limit("by margin, then refused", mixed, order.to_string()),
        text("no requirement", several(2, &[]).text(), refused(1)),
        text("16 requirements, a broken row", behind(whole(16), b"t=9 src=m\n"), refused(1)),
        text("17 requirements, a broken row", behind(whole(17), b"t=9 src=m\n"), refused(1)),
        text(
            "17 requirements, no last line feed",
            behind(whole(17), b"t=9 src=m v0=0"),
            refused(1),
        ),
        text("a requirement behind the rows", behind(whole(1), b"req=p0\n"), refused(1)),
        text("16 requirements, the last cut", cut(several(2, &["p0"; 16])), refused(1)),
        text("17 requirements, the last cut", cut(several(2, &["p0"; 17])), refused(1)),
        text("unread rows, a requirement cut", cut(unread(1)), refused(1)),
        text("unread rows, the second cut", cut(unread(2)), refused(1)),
        text("unread rows, the 17th cut", cut(unread(17)), refused(1)),
        text("unread rows, a key alone", behind(unread(1).text(), b"req="), refused(1)),
        text("unread rows, junk", behind(unread(2).text(), b"re=\nreq=T"), each(2, |_| refused(4))),
        text("unread rows, 12 and junk", behind(unread(17).text(), b"x\r\n"), refused(12)),
        text("unread rows, lines behind junk", behind(unread(1).text(), b"\nreq=T\n"), refused(4)),
    ]
}

fn text_sizes() -> Vec<Limit> {
    let sized = |bytes: usize| {
        let mut text = draft(1, 3, "p0").text();
        let short = b"t=0 src=f v0=0\n";
        while bytes - text.len() >= 2 * short.len() {
            text.extend(short);
        }
        // The last filled row is as long as the size asks, from 15 to 29 bytes, by its digits.
        let digits = bytes - text.len() - (short.len() - 2);
        let time = (digits - 1).min(10);
        let value = digits - time;
        text.extend(format!("t={} src=f v0={}\n", "1".repeat(time), "2".repeat(value)).bytes());
        text
    };
    let filled = |text: &[u8]| text.windows(6).filter(|bytes| *bytes == b" src=f").count();
    let unread = |bytes: usize| {
        let mut text = b"chan=0\nstep=1\ndrift=0\nreq=T\n".to_vec();
        text.resize(bytes, b'x');
        text
    };
    let full = sized(65_536);
    let printed = holds(3, filled(&full));
    vec![
        Limit { name: "65,536 bytes".to_string(), text: full, printed },
        Limit { name: "65,537 bytes".to_string(), text: sized(65_537), printed: refused(1) },
        Limit {
            name: "65,536 bytes, unread rows".to_string(),
            text: unread(65_536),
            printed: refused(4),
        },
        Limit {
            name: "65,537 bytes, unread rows".to_string(),
            text: unread(65_537),
            printed: refused(1),
        },
        Limit { name: "a million bytes".to_string(), text: unread(1_000_000), printed: refused(1) },
        Limit { name: "no byte".to_string(), text: Vec::new(), printed: refused(1) },
    ]
}
