//! Document 01's example, whole and by its parts, windows from now and without their ends, predicates
//! by number, scales, several requirements, tables written out, watches, and every refusal number.

use varmityep::{
    answer, kind, margin, read_requirement, read_rows, read_sheet, verdict, Counts, Judgement,
    Node, Predicate, Predicates, Range, Recording, Refusal, Table, Verdict, Watch,
    MOST_REQUIREMENTS, MOST_REQUIREMENT_BYTES, MOST_SCALE, NO_END, TOP,
};

const EXAMPLE: &str = "\
chan=1
c=0 scale=1
p=0 ch=0 lo=5 hi=*
step=1
drift=2
req=G[0,2]p0
t=0 src=m v0=10
t=1 src=m v0=11
t=2 src=m v0=10
t=3 src=m v0=9
t=4 src=m v0=10
";

#[test]
fn the_example_prints_its_line() {
    let line = "rows=5 filled=0 margin=6 hold=5 fail=-6 verdict=holds\n";
    assert_eq!(answer(EXAMPLE.as_bytes()), line);
}

#[test]
fn the_example_by_its_parts() {
    let sheet = read_sheet(EXAMPLE.as_bytes()).unwrap();
    assert_eq!((sheet.channels, sheet.step, sheet.drift), (1, 1, 2));
    assert_eq!(sheet.scales, [1]);
    assert_eq!(sheet.predicates[0], Predicate { channel: 0, range: Range::AtLeast(5) });
    assert_eq!(sheet.predicates[1..], [Predicate::default(); 15]);
    assert_eq!(sheet.requirements, [b"G[0,2]p0"]);

    let table = read_requirement(sheet.requirements[0]).unwrap();
    let leaf = Node { kind: 1, ..Node::default() };
    assert_eq!(table.nodes, [leaf, Node { kind: 8, hi: 2, ..Node::default() }]);

    let (mut times, mut values) = ([7; 6], [7; 6]);
    let counts = read_rows(sheet.rows, 1, &mut times, &mut values);
    assert_eq!(counts, Ok(Counts { measured: 5, filled: 0 }));
    assert_eq!((times, values), ([0, 1, 2, 3, 4, 7], [10, 11, 10, 9, 10, 7]));

    let (times, values) = (&times[..5], &values[..5]);
    let recording = Recording { channels: 1, scales: &sheet.scales, times, values };
    let mut work = [77; 21];
    assert_eq!(margin(&table, &sheet.predicates, &recording, &mut work), Ok(6));
    assert_eq!(work[..10], [6, 7, 6, 5, 6, 6, 5, 5, 5, 6]);
    assert_eq!(work[10..], [77; 11]);
    let judged = verdict(&table, &sheet.predicates, &recording, 1, 2, &mut work);
    assert_eq!(judged, Ok(Judgement { verdict: Verdict::Holds, hold: 5, fail: -6 }));
    assert_eq!(work[20], 77);
}

/// The example with these requirements in the place of its own.
fn several(requirements: &[&str]) -> String {
    let lines: String = requirements.iter().map(|text| format!("req={text}\n")).collect();
    EXAMPLE.replace("req=G[0,2]p0\n", &lines)
}

/// The example's answer for another requirement.
fn asked(requirement: &str) -> String {
    answer(several(&[requirement]).as_bytes())
}

#[test]
fn a_window_that_starts_now_still_does_when_strengthened() {
    let settled = "rows=5 filled=0 margin=7 hold=6 fail=-7 verdict=holds\n";
    assert_eq!(asked("F[0,1]p0"), settled);
    assert_eq!(asked("TU[0,1]p0"), settled);
    // One instant is shorter than the step: nothing is left, and nothing is put at 0.
    let empty = format!("rows=5 filled=0 margin=6 hold=-{TOP} fail=-7 verdict=unshown\n");
    assert_eq!(asked("F[0,0]p0"), empty);
    // A later start moves inward as the end does.
    let late = format!("rows=5 filled=0 margin=7 hold=-{TOP} fail=-7 verdict=unshown\n");
    assert_eq!(asked("F[1,2]p0"), late);
}

/// An eventually over predicate 0.
fn eventually(lo: u64, hi: u64, open_lo: u64, open_hi: u64) -> Table {
    let root = Node { lo, hi, open_lo, open_hi, ..of(kind::EVENTUALLY, 0, 0) };
    Table { nodes: vec![LEAF, root] }
}

#[test]
fn a_window_may_exclude_its_ends() {
    let hour = 3_600;
    for (text, table) in [
        ("F[0,3600)p0", eventually(0, hour, 0, 1)),
        ("F(0,3600]p0", eventually(0, hour, 1, 0)),
        ("F(0,3600)p0", eventually(0, hour, 1, 1)),
        ("F(1000000000,*]p0", eventually(1_000_000_000, NO_END, 1, 0)),
    ] {
        assert_eq!(read_requirement(text.as_bytes()).as_ref(), Ok(&table));
        assert_eq!(table.write().as_deref(), Ok(text));
    }
    // Each reads as the window with its end moved by one.
    for (open, closed) in [
        ("F[0,1)p0", "F[0,0]p0"),
        ("F[0,2)p0", "F[0,1]p0"),
        ("G(0,3]p0", "G[1,3]p0"),
        ("p0U(0,4)!p0", "p0U[1,3]!p0"),
        ("p0R(1,*]p0", "p0R[2,*]p0"),
    ] {
        assert_eq!(asked(open), asked(closed));
        let mut watches = [watch(open), watch(closed)];
        for time in 0..5 {
            let margins = watches.each_mut().map(|watch| {
                assert_eq!(watch.row(time, &[10 - time as i64]), Ok(()));
                watch.margin()
            });
            assert_eq!(margins[0], margins[1], "{open}");
        }
    }
    // From 0 without 0 is no window from now.
    let late = format!("rows=5 filled=0 margin=7 hold=-{TOP} fail=-7 verdict=unshown\n");
    assert_eq!(asked("F(0,1]p0"), late);
}

#[test]
fn a_window_left_empty_is_refused() {
    for text in ["F(5,5]p0", "F[5,5)p0", "F(5,6)p0", "F[0,*)p0", "F (0,1]p0", "F(p0)"] {
        assert_eq!(read_requirement(text.as_bytes()), Err(Refusal::Requirement), "{text}");
        assert_eq!(asked(text), "refused=2\n");
    }
    let predicates = whole().predicates;
    let mut tables = vec![
        eventually(5, 5, 1, 0),
        eventually(5, 5, 0, 1),
        eventually(5, 6, 1, 1),
        eventually(0, NO_END, 0, 1),
        eventually(0, 9, 2, 0),
        eventually(0, 9, 0, u64::MAX),
    ];
    // A kind without a window has no marks, in a node that the root does not reach either.
    let marked = Node { open_lo: 1, ..of(kind::NOT, 0, 0) };
    tables.push(Table { nodes: vec![LEAF, marked] });
    tables.push(Table { nodes: vec![LEAF, marked, LEAF] });
    for table in tables {
        assert_eq!(table.write(), Err(Refusal::Table));
        assert_eq!(refusals(&Call { table: table.clone(), ..whole() }).0, Some(Refusal::Table));
        assert_eq!(Watch::fresh(&table, &predicates, &[1]).refusal(), Some(Refusal::Table));
    }
}

#[test]
fn predicates_stand_by_rising_number() {
    let (zero, three) = ("p=0 ch=0 lo=5 hi=*\n", "p=3 ch=0 lo=* hi=20\n");
    let sheet = |lines: &[&str]| EXAMPLE.replace(zero, &lines.concat());
    let rising = sheet(&[zero, three]);
    let predicates = read_sheet(rising.as_bytes()).unwrap().predicates;
    assert_eq!(predicates[0], Predicate { channel: 0, range: Range::AtLeast(5) });
    assert_eq!(predicates[1..3], [Predicate::default(); 2]);
    assert_eq!(predicates[3], Predicate { channel: 0, range: Range::AtMost(20) });
    assert_eq!(predicates[4..], [Predicate::default(); 12]);
    for unordered in [[three, zero], [zero, zero], [three, three]] {
        let text = sheet(&unordered);
        assert_eq!(read_sheet(text.as_bytes()).err(), Some(Refusal::Text));
        assert_eq!(answer(text.as_bytes()), "refused=1\n");
    }
}

/// Power in hundredths of a decibel, pump current in tenths of a milliampere.
const TWO_UNITS: &str = "\
chan=2
c=0 scale=1
c=1 scale=10
p=0 ch=0 lo=-150 hi=*
p=1 ch=1 lo=* hi=312
step=1
drift=20
req=G[0,*](p0&p1)
t=0 src=m v0=-120 v1=305
t=1 src=m v0=-118 v1=306
t=2 src=m v0=-121 v1=304
";

#[test]
fn distances_are_multiplied_by_their_channels_scale() {
    let line = |margin: i64, verdict| {
        let fail = -margin;
        format!("rows=3 filled=0 margin={margin} hold={margin} fail={fail} verdict={verdict}\n")
    };
    assert_eq!(answer(TWO_UNITS.as_bytes()), line(30, "holds"));
    // Unscaled, the current's 7 would be the smallest.
    let unscaled = TWO_UNITS.replace("scale=10", "scale=1");
    assert_eq!(answer(unscaled.as_bytes()), line(7, "unshown"));
    // From 306 to 301 is more than twice the drift in the scaled unit alone.
    let jump = TWO_UNITS.replace("v1=304", "v1=301");
    assert_eq!(answer(jump.as_bytes()), "refused=11\n");
    assert_eq!(answer(jump.replace("scale=10", "scale=1").as_bytes()), line(7, "unshown"));
    let free = TWO_UNITS.replace("hi=312", "hi=*").replace("p0&p1", "p1");
    assert_eq!(answer(free.as_bytes()), line(TOP, "holds"));
}

#[test]
fn a_sheet_has_the_scales_of_its_channels() {
    let scales = |text: &str| read_sheet(text.as_bytes()).map(|sheet| sheet.scales);
    assert_eq!(scales(TWO_UNITS), Ok(vec![1, 10]));
    // A scale out of range refuses each requirement, not the sheet.
    let zero = TWO_UNITS.replace("scale=10", "scale=0");
    assert_eq!(scales(&zero), Ok(vec![1, 0]));
    assert_eq!(answer(zero.as_bytes()), "refused=13\n");
    let all: String = (0..8).map(|c| format!("c={c} scale={}\n", c + 993)).collect();
    let front =
        |channels: u64, lines: &str| format!("chan={channels}\n{lines}step=1\ndrift=0\nreq=T\n");
    assert_eq!(scales(&front(8, &all)), Ok((993..=MOST_SCALE).collect()));
    for channels in [0, 9, 4_294_967_295] {
        assert_eq!(scales(&front(channels, "")), Ok(vec![]));
        assert_eq!(scales(&front(channels, &all)), Err(Refusal::Text));
    }
    assert_eq!(scales(&front(7, &all)), Err(Refusal::Text));
    assert_eq!(scales(&front(1, "")), Err(Refusal::Text));
}

#[test]
fn several_requirements_come_by_rising_margin() {
    // Two margins of 6, in sheet order whatever their holds, and the refused ones behind.
    let lines = "\
req=3 rows=5 filled=0 margin=-6 hold=-6 fail=6 verdict=fails
req=1 rows=5 filled=0 margin=6 hold=6 fail=-6 verdict=holds
req=4 rows=5 filled=0 margin=6 hold=5 fail=-6 verdict=holds
req=5 rows=5 filled=0 margin=7 hold=6 fail=-7 verdict=holds
req=0 refused=3
req=2 refused=2
";
    let requirements = ["p1", "p0", "p0 ", "!p0", "G[0,2]p0", "F[1,3]p0"];
    let text = several(&requirements);
    assert_eq!(answer(text.as_bytes()), lines);
    assert_eq!(read_sheet(text.as_bytes()).unwrap().requirements, requirements.map(str::as_bytes));
    // Behind its number, each line is what the requirement alone gets.
    for line in lines.lines() {
        let (k, alone) = line.strip_prefix("req=").unwrap().split_once(' ').unwrap();
        let requirement = requirements[k.parse::<usize>().unwrap()];
        assert_eq!(asked(requirement), format!("{alone}\n"));
    }
    // A fault of the recording refuses each by its own number; 1 and 12 refuse the sheet.
    let gap = text.replace("t=2 src=m", "t=2 src=f");
    let tens = "req=0 refused=3\nreq=1 refused=10\nreq=2 refused=2\n\
        req=3 refused=10\nreq=4 refused=10\nreq=5 refused=10\n";
    assert_eq!(answer(gap.as_bytes()), tens);
    assert_eq!(answer(format!("{text}junk\n").as_bytes()), "refused=1\n");
    assert_eq!(answer(format!("{}junk\n", several(&["p0"; 17])).as_bytes()), "refused=1\n");
    let sixteen = read_sheet(several(&["p0"; MOST_REQUIREMENTS]).as_bytes())
        .map(|sheet| sheet.requirements.len());
    assert_eq!(sixteen, Ok(16));
}

/// A sheet of so many rows, one second apart, none of which misses anything.
fn long_sheet(requirement: &str, rows: usize) -> String {
    let front = "chan=1\nc=0 scale=1\np=0 ch=0 lo=5 hi=*\nstep=1\ndrift=2\n";
    let rows = (0..rows).map(|t| format!("t={t} src=m v0=10\n")).collect::<String>();
    format!("{front}req={requirement}\n{rows}")
}

#[test]
fn every_number_refuses_a_sheet() {
    let edits = [
        (1, "step=1", "step=01"),
        (2, "req=G[0,2]p0", "req=G[2,0]p0"),
        (3, "req=G[0,2]p0", "req=G[0,2]p1"),
        (4, "ch=0", "ch=1"),
        (13, "scale=1", "scale=1001"),
        (6, "t=2", "t=1"),
        (7, "v0=11", "v0=1000000001"),
        (9, "step=1", "step=0"),
        (10, "t=2 src=m", "t=2 src=f"),
        (11, "v0=9", "v0=15"),
    ];
    for (number, old, new) in edits {
        let refused = answer(EXAMPLE.replace(old, new).as_bytes());
        assert_eq!(refused, format!("refused={number}\n"), "{new}");
    }
    assert_eq!(answer(several(&["p0"; 17]).as_bytes()), "refused=12\n");
    assert_eq!(answer(long_sheet("G[0,2]p0", 2_049).as_bytes()), "refused=5\n");
    assert_eq!(answer(long_sheet("!G[0,2]p0", 2_048).as_bytes()), "refused=8\n");
    assert!(answer(long_sheet("G[0,2]p0", 2_048).as_bytes()).starts_with("rows=2048 filled=0 "));
}

/// What margin and verdict are called with, to be broken in one place.
struct Call {
    table: Table,
    predicates: Predicates,
    channels: u64,
    scales: Vec<u64>,
    times: Vec<u64>,
    values: Vec<i64>,
    step: u64,
    drift: u64,
    cells: usize,
}

fn whole() -> Call {
    let mut predicates = Predicates::default();
    predicates[0] = Predicate { channel: 0, range: Range::AtLeast(5) };
    let table = read_requirement(b"G[0,2]p0").unwrap();
    let (times, values) = (vec![0, 1, 2], vec![10, 11, 10]);
    let scales = vec![1];
    Call { table, predicates, channels: 1, scales, times, values, step: 1, drift: 2, cells: 12 }
}

/// The refusals of margin and verdict, which must leave the cells as they are.
fn refusals(call: &Call) -> (Option<Refusal>, Option<Refusal>) {
    let recording = Recording {
        channels: call.channels,
        scales: &call.scales,
        times: &call.times,
        values: &call.values,
    };
    let (table, predicates) = (&call.table, &call.predicates);
    let mut work = vec![77; call.cells];
    let judged = verdict(table, predicates, &recording, call.step, call.drift, &mut work);
    assert!(judged.is_ok() || work == vec![77; call.cells]);
    work.fill(77);
    let found = margin(table, predicates, &recording, &mut work);
    assert!(found.is_ok() || work == vec![77; call.cells]);
    (found.err(), judged.err())
}

#[test]
fn every_refusal_of_margin_and_verdict() {
    type Break = fn(&mut Call);
    let breaks: [(Refusal, Break); 16] = [
        (Refusal::Table, |c| c.table.nodes[1].left = 1),
        (Refusal::Table, |c| c.table.nodes.resize(65, Node::default())),
        (Refusal::Predicates, |c| c.predicates[9] = Predicate { channel: 1, range: Range::Free }),
        (Refusal::Scales, |c| c.scales[0] = 0),
        (Refusal::Scales, |c| c.scales[0] = MOST_SCALE + 1),
        // Every scale is judged, whatever their count.
        (Refusal::Scales, |c| c.scales.resize(9, u64::MAX)),
        (Refusal::Samples, |c| c.scales.push(1)),
        (Refusal::Samples, |c| c.scales.clear()),
        (Refusal::Samples, |c| c.values.push(10)),
        (Refusal::Times, |c| c.times[1] = 0),
        (Refusal::Values, |c| c.values[2] = -1_000_000_001),
        (Refusal::Work, |c| c.cells = 5),
        (Refusal::StepOrDrift, |c| c.step = 0),
        (Refusal::Gap, |c| c.times[2] = 3),
        (Refusal::Jump, |c| c.values[2] = 6),
        (Refusal::Jump, |c| c.scales[0] = 5),
    ];
    assert_eq!(refusals(&whole()), (None, None));
    for (refusal, break_it) in breaks {
        let mut call = whole();
        break_it(&mut call);
        // The margin knows neither step nor drift.
        let late = [Refusal::StepOrDrift, Refusal::Gap, Refusal::Jump].contains(&refusal);
        let plain = Some(refusal).filter(|_| !late);
        assert_eq!(refusals(&call), (plain, Some(refusal)));
    }
    // Between the two needs of cells, the margin has room and the verdict has not.
    assert_eq!(refusals(&Call { cells: 11, ..whole() }), (None, Some(Refusal::Work)));
}

#[test]
fn every_refusal_of_the_readers() {
    assert_eq!(read_sheet(b"chan=1\n").err(), Some(Refusal::Text));
    assert_eq!(
        read_sheet(several(&["p0"; 17]).as_bytes()).err(),
        Some(Refusal::TooManyRequirements)
    );
    assert_eq!(read_requirement(b"G[0,2] p0").err(), Some(Refusal::Requirement));
    let row = b"t=0 src=m v0=10\n";
    let (mut times, mut values) = ([7; 1], [7; 1]);
    let mut read = |text: &[u8], channels, room| {
        read_rows(text, channels, &mut times[..room], &mut values).err()
    };
    assert_eq!(read(b"t=0 src=x v0=10\n", 1, 1), Some(Refusal::Text));
    assert_eq!(read(row, 9, 1), Some(Refusal::Predicates));
    assert_eq!(read(row, 1, 0), Some(Refusal::Samples));
    assert_eq!((times, values), ([7], [7]));
}

fn written(nodes: &[Node]) -> Result<String, Refusal> {
    Table { nodes: nodes.to_vec() }.write()
}

/// Predicate 0, and nodes that have no window.
const LEAF: Node =
    Node { kind: kind::PREDICATE, left: 0, right: 0, lo: 0, hi: 0, open_lo: 0, open_hi: 0 };

fn of(kind: u64, left: u64, right: u64) -> Node {
    Node { kind, left, right, ..Node::default() }
}

#[test]
fn a_table_is_written_with_the_parentheses_that_it_needs() {
    for (text, least) in [
        ("G[0,2]p0", "G[0,2]p0"),
        ("(F[0,5400]G[0,*]p0|p4)&(G[0,*]p2)", "(F[0,5400]G[0,*]p0|p4)&G[0,*]p2"),
        ("(p0&p1)|(p2&p3)", "p0&p1|p2&p3"),
        ("(p0|p1)|(p2|p3)", "p0|p1|(p2|p3)"),
        ("(p0&p1)&(p2&p3)", "p0&p1&(p2&p3)"),
        ("((p0U[1,*]p1))R[0,9](!p15)", "(p0U[1,*]p1)R[0,9]!p15"),
        ("!(!((p0R[0,0]T)))", "!!(p0R[0,0]T)"),
        ("!(p0&p1)U[0,1000000000]F[1,1](p2|T)", "!(p0&p1)U[0,1000000000]F[1,1](p2|T)"),
    ] {
        let table = read_requirement(text.as_bytes()).unwrap();
        assert_eq!(table.write().as_deref(), Ok(least));
        assert_eq!(read_requirement(least.as_bytes()), Ok(table));
    }
}

#[test]
fn a_shared_table_is_read_back_unshared() {
    let always = Node { lo: 3, hi: NO_END, ..of(kind::ALWAYS, 2, 0) };
    let second = Node { left: 1, ..LEAF };
    // Node 4 is not reached.
    let shared =
        [LEAF, second, of(kind::OR, 1, 0), always, of(kind::NOT, 0, 0), of(kind::AND, 0, 3)];
    assert_eq!(written(&shared).as_deref(), Ok("p0&G[3,*](p1|p0)"));
    let read = read_requirement(b"p0&G[3,*](p1|p0)").unwrap();
    let always = Node { left: 3, ..always };
    assert_eq!(read.nodes, [LEAF, second, LEAF, of(kind::OR, 1, 2), always, of(kind::AND, 0, 4)]);
    assert_eq!(read.write(), written(&shared));
}

#[test]
fn a_text_is_written_into_what_is_lent() {
    let table = read_requirement(b"G[0,2]p0").unwrap();
    let mut text = *b"~~~~~~~~~~";
    assert_eq!(table.write_into(&mut text), Ok(8));
    assert_eq!(text, *b"G[0,2]p0~~");
    let mut text = *b"~~~~~~~~";
    assert_eq!(table.write_into(&mut text[..7]), Err(Refusal::Room));
    assert_eq!(table.write_into(&mut []), Err(Refusal::Room));
    assert_eq!(text, *b"~~~~~~~~");
    assert_eq!(table.write_into(&mut text), Ok(8));
    assert_eq!(text, *b"G[0,2]p0");
    assert_eq!(table.write_into(&mut [0; MOST_REQUIREMENT_BYTES]), Ok(8));
}

#[test]
fn every_refusal_of_the_writer() {
    let nots = |count: u64| -> Vec<Node> {
        [LEAF].into_iter().chain((0..count).map(|k| of(kind::NOT, k, 0))).collect()
    };
    let doubled = |count: u64| -> Vec<Node> {
        [LEAF].into_iter().chain((0..count).map(|k| of(kind::AND, k, k))).collect()
    };
    assert_eq!(written(&nots(32)), Ok(format!("{}p0", "!".repeat(32))));
    assert_eq!(written(&doubled(5)).map(|text| text.matches("p0").count()), Ok(32));
    // One enclosing too many, a tree too large, and one that would be larger than any memory.
    for nodes in [nots(33), doubled(6), doubled(63)] {
        assert_eq!(written(&nodes), Err(Refusal::TooLarge));
        let mut text = [7; 9];
        assert_eq!(Table { nodes }.write_into(&mut text[..0]), Err(Refusal::TooLarge));
        assert_eq!(text, [7; 9]);
    }
    let sixteenth = Node { left: 16, ..LEAF };
    for nodes in [vec![], vec![LEAF; 65], vec![sixteenth], vec![sixteenth, LEAF], nots(64)] {
        assert_eq!(written(&nodes), Err(Refusal::Table));
    }
    // 3 goes before 14 and 15, also by a node that the root does not reach.
    let mut broken = doubled(62);
    broken.insert(62, Node { hi: 1, ..LEAF });
    broken[63] = of(kind::AND, 61, 61);
    assert_eq!(Table { nodes: broken }.write_into(&mut []), Err(Refusal::Table));
    // Which predicates are set is not asked.
    assert_eq!(written(&[Node { left: 15, ..LEAF }]).as_deref(), Ok("p15"));
}

/// A watch for one requirement of the example's card.
fn watch(requirement: &str) -> Watch {
    let sheet = read_sheet(EXAMPLE.as_bytes()).unwrap();
    let table = read_requirement(requirement.as_bytes()).unwrap();
    Watch::fresh(&table, &sheet.predicates, &sheet.scales)
}

#[test]
fn a_watch_gives_the_margin_of_the_rows_so_far() {
    let predicates = read_sheet(EXAMPLE.as_bytes()).unwrap().predicates;
    let (times, values) = ([0, 1, 2, 3, 4], [10, 11, 10, 9, 10]);
    for (requirement, margins) in [
        ("p0", [6; 5]),
        ("G[0,*]p0", [6, 6, 6, 5, 5]),
        ("G[0,2]p0", [6; 5]),
        ("F[1,3]p0", [-TOP, 7, 7, 7, 7]),
        ("p0U[2,*]!p0", [-TOP, -TOP, -6, -5, -5]),
        ("!(p0R[3,4]p0)|G[4,9]p0", [TOP, TOP, TOP, TOP, 6]),
    ] {
        let mut watch = watch(requirement);
        assert_eq!((watch.refusal(), watch.margin()), (None, Err(Refusal::Samples)));
        let table = read_requirement(requirement.as_bytes()).unwrap();
        for row in 0..5 {
            assert_eq!(watch.row(times[row], &values[row..=row]), Ok(()));
            assert_eq!(watch.margin(), Ok(margins[row]), "{requirement}");
            let (times, values) = (&times[..=row], &values[..=row]);
            let recording = Recording { channels: 1, scales: &[1], times, values };
            let whole = margin(&table, &predicates, &recording, &mut [0; 99]);
            assert_eq!(whole, Ok(margins[row]), "{requirement}");
        }
    }
}

#[test]
fn a_refused_row_leaves_the_watch_as_it_was() {
    let mut watch = watch("G[0,*]p0");
    assert_eq!(watch.row(7, &[10]), Ok(()));
    let before = watch.clone();
    for (time, values, refusal) in [
        (8, &[][..], Refusal::Samples),
        (7, &[0, 0], Refusal::Samples),
        (7, &[0], Refusal::Times),
        (2_000_000_001, &[1 << 40], Refusal::Times),
        (9, &[1_000_000_001], Refusal::Values),
    ] {
        assert_eq!(watch.row(time, values), Err(refusal));
        assert_eq!((&watch, watch.margin()), (&before, Ok(6)));
    }
    // A copy goes on by itself.
    let mut other = watch.clone();
    assert_eq!((watch.row(8, &[9]), other.row(2_000_000_000, &[4])), (Ok(()), Ok(())));
    assert_eq!((watch.margin(), other.margin()), (Ok(5), Ok(-1)));
}

#[test]
fn a_watch_has_one_size_and_takes_any_count_of_rows() {
    assert_eq!(size_of::<Watch>(), 8 * (Watch::NUMBERS + Watch::CELLS));
    let mut watch = watch("G[0,*]p0");
    for time in 0..5_000 {
        assert_eq!(watch.row(time, &[6_000 - time as i64]), Ok(()));
    }
    assert_eq!(watch.margin(), Ok(1_001 - 4));
}

#[test]
fn a_refused_watch_gives_its_number_to_every_call() {
    let predicates = whole().predicates;
    let of = |text: &str| read_requirement(text.as_bytes()).unwrap();
    let mut unreached = of("G[0,1](p0|!F[0,1]p0)");
    unreached.nodes.push(LEAF);
    for (table, scales, refusal) in [
        (of("G[0,1]F[0,1]p1"), &[][..], Refusal::Table),
        (Table::default(), &[1], Refusal::Table),
        (of("G[0,1]F[0,1]p0"), &[], Refusal::Predicates),
        (of("p0"), &[0; 9], Refusal::Predicates),
        (of("G[0,1]F[0,1]p0"), &[1, MOST_SCALE + 1], Refusal::Scales),
        (of("G[0,1]F[0,1]p0"), &[1], Refusal::Nested),
        (unreached, &[1], Refusal::Nested),
    ] {
        let mut watch = Watch::fresh(&table, &predicates, scales);
        assert_eq!(watch.refusal(), Some(refusal));
        for (time, values) in [(0, &[10][..]), (1, &[10]), (0, &[]), (u64::MAX, &[i64::MIN])] {
            assert_eq!(watch.row(time, values), Err(refusal));
            assert_eq!(watch.margin(), Err(refusal));
        }
    }
    // Side by side they may stand.
    assert_eq!(watch("F[0,1]p0&!(G[0,*]p0|T)").refusal(), None);
}

#[test]
fn distances_are_counted_from_one() {
    let by = |range, scale, value| Predicate { channel: 7, range }.distance(scale, value);
    let of = |range, value| by(range, 1, value);
    assert_eq!(of(Range::AtLeast(5), 10), Ok(6));
    assert_eq!(of(Range::AtLeast(5), 5), Ok(1));
    assert_eq!(of(Range::AtLeast(5), 4), Ok(-1));
    assert_eq!(of(Range::AtMost(5), 9), Ok(-4));
    assert_eq!(of(Range::Between(5, 8), 6), Ok(2));
    assert_eq!(of(Range::Free, -3), Ok(TOP));
    assert_eq!(of(Range::Between(8, 5), 6), Err(Refusal::Predicates));
    assert_eq!(of(Range::Free, 1_000_000_001), Err(Refusal::Values));
    assert_eq!(by(Range::AtLeast(5), 10, 10), Ok(60));
    assert_eq!(by(Range::AtLeast(5), 10, 4), Ok(-10));
    assert_eq!(by(Range::Free, MOST_SCALE, -3), Ok(TOP));
    let big = 1_000_000_000;
    assert_eq!(by(Range::AtLeast(-big), MOST_SCALE, big), Ok(2_000_000_001_000));
    assert_eq!(by(Range::Free, 0, big + 1), Err(Refusal::Scales));
    assert_eq!(by(Range::Free, MOST_SCALE + 1, 0), Err(Refusal::Scales));
    let ninth = Predicate { channel: 8, range: Range::Free };
    assert_eq!(ninth.distance(0, 0), Err(Refusal::Predicates));
}

#[test]
fn refusals_have_the_papers_numbers() {
    let numbers = Refusal::ALL.map(Refusal::number);
    assert_eq!(numbers, [1, 12, 2, 3, 14, 15, 4, 13, 16, 5, 6, 7, 8, 9, 10, 11]);
}
