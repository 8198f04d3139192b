//! Marks of excluded ends, looked at from outside: as a table's numbers and a text's bytes. Counted, so
//! that a run fails in which a pair of marks, or a refusal for marks alone, came up too seldom.

use crate::shapes::{letter, LETTERS};
use peer::generate::tables::uses;
use peer::grammar::read_requirement;
use peer::limits::LARGEST_END;
use peer::table::{Node, Table};
use peer::window::Window;
use std::ops::Range;

/// Windows by their brackets, with and without an end.
const FORMS: [&str; 6] = ["[,]", "[,)", "(,]", "(,)", "[,*]", "(,*]"];

pub fn form(window: Window) -> &'static str {
    let (low, high) = (usize::from(window.open_lo), usize::from(window.open_hi));
    FORMS[if window.hi.is_some() { 2 * low + high } else { 4 + low }]
}

/// These operators with windows of every form.
pub fn forms(letters: &[char]) -> Vec<String> {
    letters.iter().flat_map(|letter| FORMS.map(|form| format!("{letter} {form}"))).collect()
}

/// Every temporal operator with windows of every form.
pub fn all() -> Vec<String> {
    forms(&LETTERS)
}

/// The temporal operators that the root reaches, with the forms of their windows; of a table that
/// breaks no rule.
pub fn reached(table: &Table) -> Vec<String> {
    let reached = table.nodes.iter().zip(uses(table)).filter(|(_, uses)| *uses > 0);
    reached
        .filter_map(|(node, _)| Some(format!("{} {}", letter(node)?, form(node.window()))))
        .collect()
}

const WITHOUT_END: &str = "a high end excluded where there is none";
const EMPTIED_BY_LOW: &str = "emptied by the low end";
const EMPTIED_BY_HIGH: &str = "emptied by the high end";
const EMPTIED_BY_BOTH: &str = "emptied, both ends excluded";
const ABOVE_1: &str = "a mark above 1";
const OUT_OF_PLACE: &str = "a mark where no window is";

/// Why a text may be refused for its marks alone.
pub const TEXT_REFUSALS: [&str; 4] =
    [WITHOUT_END, EMPTIED_BY_LOW, EMPTIED_BY_HIGH, EMPTIED_BY_BOTH];
/// Why a table may be.
pub const TABLE_REFUSALS: [&str; 6] =
    [WITHOUT_END, EMPTIED_BY_LOW, EMPTIED_BY_HIGH, EMPTIED_BY_BOTH, ABOVE_1, OUT_OF_PLACE];

fn refusal(endless: bool, low: bool, high: bool) -> &'static str {
    match (endless, low, high) {
        (true, _, _) => WITHOUT_END,
        (false, true, true) => EMPTIED_BY_BOTH,
        (false, true, false) => EMPTIED_BY_LOW,
        (false, false, _) => EMPTIED_BY_HIGH,
    }
}

/// Why a table is refused, if the marks of one node are all that is wrong with it.
pub fn refused_table(table: &Table) -> Option<&'static str> {
    if !table.broken_alone() {
        return None;
    }
    let mended = |k: &usize| {
        let mut mended = table.clone();
        mended.nodes[*k] = Node { open_lo: 0, open_hi: 0, ..table.nodes[*k] };
        !mended.broken_alone()
    };
    let node = &table.nodes[(0..table.count()).find(mended)?];
    Some(match (letter(node), node.open_lo.max(node.open_hi)) {
        (None, _) => OUT_OF_PLACE,
        (Some(_), 0 | 1) => {
            let window = node.window();
            refusal(window.hi.is_none(), window.open_lo, window.open_hi)
        }
        _ => ABOVE_1,
    })
}

/// Why a requirement's text is refused, if it would be read with `[` and `]` about every window.
pub fn refused_text(text: &[u8]) -> Option<&'static str> {
    let windows = windows(text);
    let mut counted = text.to_vec();
    for window in windows.iter().filter(|window| window.len() > 1) {
        (counted[window.start], counted[window.end - 1]) = (b'[', b']');
    }
    read_requirement(&counted).ok()?;
    let is_refused = |window: &&[u8]| read_requirement(&[b"F", *window, b"T"].concat()).is_err();
    let window = windows.into_iter().map(|window| &text[window]).find(is_refused)?;
    let (low, high) = (window.starts_with(b"("), window.ends_with(b")"));
    Some(refusal(window.contains(&b'*'), low, high))
}

/// Where a text's windows stand, brackets included: behind their letters, up to the next bracket that
/// closes.
pub fn windows(text: &[u8]) -> Vec<Range<usize>> {
    let mut windows: Vec<Range<usize>> = Vec::new();
    for (place, byte) in text.iter().enumerate() {
        let inside = windows.last().is_some_and(|window| place < window.end);
        if !inside && b"URFG".contains(byte) {
            let closes = |byte: &u8| b"])".contains(byte);
            let length = text[place..].iter().position(closes);
            let end = length.map_or(text.len(), |length| place + length + 1);
            windows.push(place + 1..end);
        }
    }
    windows
}

/// The table, of which no rule is broken, with every excluded end moved and no mark: it means the same.
/// None where nothing is excluded, or where a low end would stand past its limit.
pub fn moved(table: &Table) -> Option<Table> {
    let moved = |node: &Node| match letter(node).filter(|_| node.open_lo + node.open_hi > 0) {
        None => *node,
        Some(_) => {
            let (lo, hi) = (node.lo + node.open_lo, node.hi - node.open_hi);
            Node { lo, hi, open_lo: 0, open_hi: 0, ..*node }
        }
    };
    let nodes: Vec<Node> = table.nodes.iter().map(moved).collect();
    let fits = nodes.iter().all(|node| node.lo <= LARGEST_END) && nodes != table.nodes;
    fits.then_some(Table { nodes })
}

#[cfg(test)]
mod tests {
    use super::*;
    use peer::table::kind;

    fn of(text: &str) -> Table {
        read_requirement(text.as_bytes()).unwrap()
    }

    #[test]
    fn windows_are_told_apart() {
        let nested = of("(p0U(0,1]F[0,*]p1)R(0,9)!G[0,2)p1");
        assert_eq!(reached(&nested), ["F [,*]", "U (,]", "G [,)", "R (,)"]);
        assert_eq!(reached(&of("F(3,*]p0")), ["F (,*]"]);
    }

    #[test]
    fn refusals_of_texts_are_told_apart() {
        for (text, wanted) in [
            ("p0&F(5,5]p0", Some(EMPTIED_BY_LOW)),
            ("F(0,1]G[5,5)p0", Some(EMPTIED_BY_HIGH)),
            ("p0U(5,6)p1", Some(EMPTIED_BY_BOTH)),
            ("F(0,*)p0", Some(WITHOUT_END)),
            ("F(0,1]p0", None),
            // Something else is wrong too.
            ("F(5,5]", None),
            ("F(5,4]p0", None),
            ("F", None),
            ("F(p0)", None),
        ] {
            assert_eq!(refused_text(text.as_bytes()), wanted, "{text}");
        }
    }

    #[test]
    fn refusals_of_tables_are_told_apart() {
        let root = |lo, hi, open_lo, open_hi| {
            let root = Node { kind: kind::ALWAYS, lo, hi, open_lo, open_hi, ..Node::default() };
            refused_table(&Table { nodes: vec![Node::default(), root, Node::default()] })
        };
        assert_eq!(root(5, 6, 1, 0), None);
        assert_eq!(root(6, 5, 1, 0), None);
        assert_eq!(root(5, 5, 1, 0), Some(EMPTIED_BY_LOW));
        assert_eq!(root(5, 5, 0, 1), Some(EMPTIED_BY_HIGH));
        assert_eq!(root(5, 6, 1, 1), Some(EMPTIED_BY_BOTH));
        assert_eq!(root(5, peer::limits::NO_END, 1, 1), Some(WITHOUT_END));
        assert_eq!(root(5, 9, 0, 2), Some(ABOVE_1));
        let nodes = vec![Node { open_hi: u64::MAX, ..Node::default() }];
        assert_eq!(refused_table(&Table { nodes }), Some(OUT_OF_PLACE));
    }

    #[test]
    fn excluded_ends_are_moved() {
        assert_eq!(moved(&of("p0U(0,9)F[1,2)p1")), Some(of("p0U[1,8]F[1,1]p1")));
        assert_eq!(moved(&of("G(3,*]!p0")), Some(of("G[4,*]!p0")));
        assert_eq!(moved(&of("G[3,*]!p0")), None);
        assert_eq!(moved(&of("G(1000000000,*]!p0")), None);
    }
}
