//! Watches: margins after each row, and refusals, worked out by hand.

use crate::carried::Carried;
use crate::grammar::read_requirement;
use crate::limits::{LAST_TIME, TOP};
use crate::margin::margin;
use crate::predicate::{Predicate, Predicates, Range, UNSET};
use crate::recording::Recording;
use crate::refusal::Refusal;
use crate::table::{kind, Node, Table};
use crate::watch::Watch;

/// The bench's predicates: p0 at least 3, p1 at most 6.
fn bench() -> Predicates {
    let mut predicates = [UNSET; 16];
    predicates[0] = Predicate { channel: 0, range: Range::AtLeast(3) };
    predicates[1] = Predicate { channel: 0, range: Range::AtMost(6) };
    predicates
}

fn watch(text: &str) -> Watch {
    Watch::fresh(&read_requirement(text.as_bytes()).unwrap(), &bench(), &[1])
}

/// The bench's rows: times 0 to 3, values 5, 7, 2, 9.
const ROWS: [(u64, i64); 4] = [(0, 5), (1, 7), (2, 2), (3, 9)];

#[test]
fn the_bench_readings_row_by_row() {
    for (text, wanted) in [
        ("p0", [3, 3, 3, 3]),
        ("G[0,3]p0", [3, 3, -1, -1]),
        ("F[0,3]p0", [3, 5, 5, 7]),
        ("G[4,9]p0", [TOP; 4]),
        ("F[4,9]p0", [-TOP; 4]),
        ("p0U[1,2]p1", [-TOP, -1, 3, 3]),
        ("p1R[0,2]p0", [3, 3, 2, 2]),
        ("!p0", [-3; 4]),
        // Windows that open and close later, and operators side by side.
        ("G[1,2]p0", [TOP, 5, -1, -1]),
        ("F[2,*]p0", [-TOP, -TOP, -1, 7]),
        ("p0U[0,*]!p1", [-2, 1, 1, 1]),
        ("F[0,3]p0&G[0,1]p1", [2, -1, -1, -1]),
        ("!(p0U[1,2]p1)|G[4,9]p0", [TOP; 4]),
        ("p1|F[3,3](p0&!p1)", [2, 2, 2, 3]),
        // Windows without their ends.
        ("F[0,3)p0", [3, 5, 5, 5]),
        ("F(0,*]p0", [-TOP, 5, 5, 7]),
        ("G(0,2)p0", [TOP, 5, 5, 5]),
        ("p0U(1,3)p1", [-TOP, -TOP, 3, 3]),
        ("p1R(0,2]p0", [TOP, 5, 2, 2]),
    ] {
        let mut watch = watch(text);
        let (table, predicates) = (read_requirement(text.as_bytes()).unwrap(), bench());
        let mut carried = Carried::over(&table, &predicates, &[1]);
        assert_eq!(watch.margin(), Err(Refusal::Samples));
        for ((time, value), margin) in ROWS.into_iter().zip(wanted) {
            assert_eq!(watch.row(time, &[value]), Ok(()));
            carried.take(time, &[value]);
            assert_eq!((watch.margin(), carried.margin()), (Ok(margin), margin), "{text} {time}");
        }
    }
}

#[test]
fn a_refused_row_leaves_the_watch_unchanged() {
    let mut watch = watch("G[0,3]p0");
    let big = 1_000_000_001;
    for (time, values, refusal) in [
        (7, &[][..], Refusal::Samples),
        (7, &[5, 5], Refusal::Samples),
        (u64::MAX, &[big, big], Refusal::Samples),
        (LAST_TIME + 1, &[big], Refusal::Times),
        (7, &[big], Refusal::Values),
        (7, &[-big], Refusal::Values),
        (7, &[i64::MIN], Refusal::Values),
    ] {
        let before = watch.clone();
        assert_eq!(watch.row(time, values), Err(refusal));
        assert_eq!(watch, before);
        assert_eq!(watch.margin(), Err(Refusal::Samples));
    }
    // The first row may come at any time; a later one only behind the last that was accepted.
    assert_eq!(watch.row(0, &[5]), Ok(()));
    for (time, values, refusal) in [
        (0, &[-9][..], Refusal::Times),
        (0, &[], Refusal::Samples),
        (0, &[big], Refusal::Times),
        (LAST_TIME + 1, &[-9], Refusal::Times),
        (2, &[big], Refusal::Values),
        (3, &[], Refusal::Samples),
    ] {
        let before = watch.clone();
        assert_eq!(watch.row(time, values), Err(refusal));
        assert_eq!(watch, before);
        assert_eq!(watch.margin(), Ok(3));
    }
    assert_eq!(watch.row(1, &[4]), Ok(()));
    assert_eq!(watch.margin(), Ok(2));
    assert_eq!(watch.row(LAST_TIME, &[-1_000_000_000]), Ok(()));
    assert_eq!(watch.row(LAST_TIME, &[5]), Err(Refusal::Times));
    assert_eq!(watch.margin(), Ok(2));
}

/// Whatever a watch is given, it answers with what refused its making.
fn refused(table: &Table, predicates: &Predicates, scales: &[u64], refusal: Refusal) {
    let mut watch = Watch::fresh(table, predicates, scales);
    let before = watch.clone();
    assert_eq!(watch.refusal(), Some(refusal));
    for (time, values) in [(0, &[5][..]), (1, &[5]), (0, &[]), (u64::MAX, &[i64::MAX])] {
        assert_eq!(watch.row(time, values), Err(refusal));
        assert_eq!(watch.margin(), Err(refusal));
        assert_eq!(watch, before);
    }
}

#[test]
fn refusals_of_a_making_count_in_their_order() {
    let of = |text: &str| read_requirement(text.as_bytes()).unwrap();
    let (good, nested, unset) = (of("G[0,1]p0"), of("G[0,1]F[0,1]p0"), of("G[0,1]G[0,1]p2"));
    let mut bad = bench();
    bad[9] = Predicate { channel: 1, range: Range::Free };
    assert_eq!(Watch::fresh(&good, &bench(), &[1]).refusal(), None);
    for scales in [&[][..], &[1], &[0], &[1; 9], &[0; 9]] {
        refused(&unset, &bad, scales, Refusal::Table);
        refused(&Table::default(), &bench(), scales, Refusal::Table);
    }
    for table in [&good, &nested] {
        for scales in [&[][..], &[1; 9], &[0; 9], &[1_001; 200]] {
            refused(table, &bench(), scales, Refusal::Predicates);
        }
        refused(table, &bad, &[1], Refusal::Predicates);
        refused(table, &bad, &[0], Refusal::Predicates);
        refused(table, &bad, &[1, 1_001], Refusal::Scales);
        refused(table, &bench(), &[1, 1, 1, 1, 1, 1, 1, 0], Refusal::Scales);
    }
    refused(&nested, &bench(), &[1], Refusal::Nested);
}

#[test]
fn a_temporal_operator_inside_another() {
    for text in [
        "F[0,1]G[0,1]p0", "G[0,1]!F[0,1]p0", "G[0,1](p0&(p1|!F[0,1]p0))", "p0U[0,1]G[0,1]p0",
        "(F[0,1]p0)U[0,1]p0", "p0R[0,1](p1&(p0R[0,1]p1))", "(p0U[0,1]p1)R[0,1]p0",
        "!(p0&!G[0,*]F[0,0]T)",
    ] {
        let table = read_requirement(text.as_bytes()).unwrap();
        refused(&table, &bench(), &[1], Refusal::Nested);
        // In a node that the root does not reach, too.
        let root = Node { kind: kind::TRUE, ..Node::default() };
        let nodes = table.nodes.into_iter().chain([root]).collect();
        refused(&Table { nodes }, &bench(), &[1], Refusal::Nested);
    }
    for text in ["F[0,1]p0&G[0,1]p0", "!(p0U[0,1]p1)|G[0,*](p0&!p1)", "p0", "T"] {
        assert_eq!(watch(text).refusal(), None, "{text}");
    }
}

#[test]
fn shared_nodes_are_worked_out_once() {
    let leaf = Node { kind: kind::PREDICATE, ..Node::default() };
    let mut nodes = vec![leaf, Node { kind: kind::ALWAYS, hi: 9, ..Node::default() }];
    nodes.extend((1..63).map(|k| Node { kind: kind::AND, left: k, right: k, ..leaf }));
    let mut watch = Watch::fresh(&Table { nodes: nodes.clone() }, &bench(), &[7]);
    assert_eq!(watch.row(4, &[5]), Ok(()));
    assert_eq!(watch.margin(), Ok(21));
    // One temporal operator over all of them.
    nodes[63] = Node { kind: kind::EVENTUALLY, left: 62, ..Node::default() };
    refused(&Table { nodes }, &bench(), &[7], Refusal::Nested);
}

#[test]
fn rows_past_4096() {
    let table = read_requirement(b"G[0,*]p0").unwrap();
    let mut watch = Watch::fresh(&table, &bench(), &[1]);
    for time in 0..4_100 {
        assert_eq!(watch.row(time, &[5_000 - time as i64]), Ok(()));
    }
    assert_eq!(watch.margin(), Ok(5_000 - 4_099 - 2));
    let (times, values) = ((0..4_097).collect(), (0..4_097).map(|time| 5_000 - time).collect());
    let recording = Recording { channels: 1, scales: vec![1], times, values };
    let mut work = vec![0; 2 * 4_097];
    assert_eq!(margin(&table, &bench(), &recording, &mut work), Err(Refusal::Samples));
}
