//! Windows without their ends: texts, tables, margins and lines worked out by hand.

use crate::grammar::read_requirement;
use crate::limits::{NO_END, TOP};
use crate::refusal::Refusal;
use crate::table::{kind, Node, Table};
use crate::worked::{bench_margin, says, with};
use crate::writer::write_requirement;

/// The text of a table that is not refused.
fn written(table: &Table) -> Result<String, Refusal> {
    let mut slice = [0; 2_000];
    let written = write_requirement(table, &mut slice);
    let text = String::from_utf8(slice[..written.length].to_vec()).unwrap();
    written.refusal.map_or(Ok(text), Err)
}

/// Over a leaf: an eventually with this window.
fn eventually(lo: u64, hi: u64, open_lo: u64, open_hi: u64) -> Table {
    let leaf = Node { kind: kind::PREDICATE, ..Node::default() };
    let root = Node { kind: kind::EVENTUALLY, lo, hi, open_lo, open_hi, ..Node::default() };
    Table { nodes: vec![leaf, root] }
}

const LIMIT: u64 = 1_000_000_000;

/// Windows with a second inside.
const GOOD: &[(&str, [u64; 4])] = &[
    ("F(5,6]p0", [5, 6, 1, 0]),
    ("F[5,6)p0", [5, 6, 0, 1]),
    ("F(5,7)p0", [5, 7, 1, 1]),
    ("F[0,1)p0", [0, 1, 0, 1]),
    ("F(0,*]p0", [0, NO_END, 1, 0]),
    ("F(999999999,1000000000]p0", [LIMIT - 1, LIMIT, 1, 0]),
    ("F[999999999,1000000000)p0", [LIMIT - 1, LIMIT, 0, 1]),
    ("F(1000000000,*]p0", [LIMIT, NO_END, 1, 0]),
];

/// Windows left empty, and high marks without an end.
const BAD: &[(&str, [u64; 4])] = &[
    ("F(5,5]p0", [5, 5, 1, 0]),
    ("F[5,5)p0", [5, 5, 0, 1]),
    ("F(5,5)p0", [5, 5, 1, 1]),
    ("F(5,6)p0", [5, 6, 1, 1]),
    ("F[0,0)p0", [0, 0, 0, 1]),
    ("F[1000000000,1000000000)p0", [LIMIT, LIMIT, 0, 1]),
    ("F(1000000000,1000000000]p0", [LIMIT, LIMIT, 1, 0]),
    ("F[0,*)p0", [0, NO_END, 0, 1]),
    ("F(0,*)p0", [0, NO_END, 1, 1]),
    ("F(1000000001,*]p0", [LIMIT + 1, NO_END, 1, 0]),
    ("F[0,1000000001)p0", [0, LIMIT + 1, 0, 1]),
];

#[test]
fn text_and_table_say_the_same() {
    for &(text, [lo, hi, open_lo, open_hi]) in GOOD {
        let table = eventually(lo, hi, open_lo, open_hi);
        assert_eq!(read_requirement(text.as_bytes()).as_ref(), Ok(&table), "{text}");
        assert_eq!(written(&table).as_deref(), Ok(text));
    }
    for &(text, [lo, hi, open_lo, open_hi]) in BAD {
        let table = eventually(lo, hi, open_lo, open_hi);
        assert_eq!(read_requirement(text.as_bytes()), Err(Refusal::Requirement), "{text}");
        assert_eq!(written(&table), Err(Refusal::Table), "{text}");
    }
}

#[test]
fn marks_are_0_or_1_and_have_a_window() {
    for mark in [2, 3, 1 << 32, u64::MAX] {
        for hi in [9, LIMIT, NO_END] {
            assert!(eventually(0, hi, mark, 0).broken_alone());
            assert!(eventually(0, hi, 0, mark).broken_alone());
        }
    }
    for kind in kind::TRUE..=kind::OR {
        for (open_lo, open_hi) in [(1, 0), (0, 1), (1, 1), (2, 0), (0, u64::MAX)] {
            let marked = Node { kind, open_lo, open_hi, ..Node::default() };
            let nodes = vec![Node::default(), marked];
            assert!(Table { nodes: nodes.clone() }.broken_alone(), "{marked:?}");
            // Also where the root doesn't reach it.
            let nodes = [nodes, vec![Node::default()]].concat();
            assert!(Table { nodes }.broken_alone(), "{marked:?}");
        }
    }
}

#[test]
fn brackets_of_a_window() {
    for text in [
        "F (0,1]p0", "F(p0)", "F((0,1]p0)", "F(0,1](p0", "F(0,1p0", "F0,1)p0", "F(0,1]",
        "F)0,1(p0", "F[0,1]]p0", "F(0)p0", "F(0,1,2)p0", "p0U(p1)", "p0U(0,1](p1", "p0R()p1",
        "F(*,1]p0", "F(0, 1]p0", "F(-1,1]p0", "F(00,1]p0", "F(0,1]p0)",
    ] {
        assert_eq!(read_requirement(text.as_bytes()), Err(Refusal::Requirement), "{text}");
    }
    let read = |text: &str| read_requirement(text.as_bytes()).unwrap();
    assert_eq!(read("F(0,1](p0)"), read("F(0,1]p0"));
    assert_eq!(read("(p0)U[0,2)((p1))"), read("p0U[0,2)p1"));
}

#[test]
fn a_windows_bracket_is_no_enclosing() {
    let deep = |count: usize, text: &str| format!("{}{text}", "!".repeat(count));
    let many = |count: usize, window: &str| format!("{}p0", format!("F{window}").repeat(count));
    for (good, bad) in [
        // The letter and the parenthesis are two; until and release are none.
        (deep(30, "F(0,1](p0)"), deep(31, "F(0,1](p0)")),
        (deep(31, "(p0U(0,2)p1)"), deep(32, "(p0U(0,2)p1)")),
        (many(32, "(0,1]"), many(33, "(0,1]")),
        (many(32, "(0,2)"), many(33, "(0,2)")),
    ] {
        let table = read_requirement(good.as_bytes()).unwrap();
        assert!(written(&table).is_ok(), "{good}");
        assert_eq!(read_requirement(bad.as_bytes()), Err(Refusal::Requirement), "{bad}");
    }
    // The same of the writer: 32 enclosings, and 33.
    let nots = |count: u64| {
        let mut table = eventually(0, 1, 1, 0);
        table.nodes.extend((1..=count).map(|left| Node {
            kind: kind::NOT,
            left,
            ..Node::default()
        }));
        table
    };
    assert_eq!(written(&nots(31)), Ok(deep(31, "F(0,1]p0")));
    assert_eq!(written(&nots(32)), Err(Refusal::TooLarge));
}

#[test]
fn margins_of_the_bench_readings() {
    // p0 is 3, 5, -1, 7 at the four samples, p1 is 2, -1, 5, -3.
    for (text, wanted) in [
        ("F[0,1)p0", 3),
        ("F[0,3)p0", 5),
        ("F(0,3]p0", 7),
        ("F(1,3)p0", -1),
        ("F(3,*]p0", -TOP),
        ("G[0,2)p0", 3),
        ("G(0,2]p0", -1),
        ("G(0,2)p0", 5),
        ("G(2,*]p0", 7),
        ("G(1000000000,*]p0", TOP),
        ("p0U[1,2)p1", -1),
        ("p0U(1,2]p1", 3),
        ("p0U(0,2)p1", -1),
        ("p0U[0,1)p1", 2),
        ("p1R[0,2)p0", 3),
        ("p1R(0,2]p0", 2),
        ("p1R(0,2)p0", 5),
        ("p1R(2,*]p0", 7),
    ] {
        assert_eq!(bench_margin(text), wanted, "{text}");
    }
}

#[test]
fn lines_of_the_example() {
    let unshown = format!("hold=-{TOP} fail=-7 verdict=unshown");
    let top = format!("hold={TOP} fail=-{TOP} verdict=holds");
    for (text, margin, rest) in [
        ("F[0,1](p0)", 7, "hold=6 fail=-7 verdict=holds"),
        ("F[0,2)p0", 7, "hold=6 fail=-7 verdict=holds"),
        // The low end is 1 as it is read, so it is no window from now.
        ("F(0,1](p0)", 7, &unshown),
        ("F(0,4)p0", 7, "hold=6 fail=-7 verdict=holds"),
        ("G[0,3)p0", 6, "hold=5 fail=-6 verdict=holds"),
        ("!!G(0,2)p0", 7, &format!("hold=6 fail=-{TOP} verdict=holds")),
        ("p0U(0,1]p0", 6, &format!("hold=-{TOP} fail=-6 verdict=unshown")),
        ("G(1000000000,*]p0", TOP, &top),
    ] {
        let sheet = with("G[0,2]p0", text);
        says(&sheet, &format!("rows=5 filled=0 margin={margin} {rest}"));
    }
    for &(text, _) in BAD {
        says(&with("G[0,2]p0", text), "refused=2");
    }
}
