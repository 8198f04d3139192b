//! The pairs of parentheses of a requirement's text, looked at from outside: as its bytes.

use crate::marked::windows;
use peer::grammar::read_tree;
use peer::tree::Tree;

/// A pair: the places of its two bytes.
#[derive(Clone, Copy, PartialEq, Eq, Debug)]
pub struct Pair {
    open: usize,
    close: usize,
}

/// The pairs of a text that the grammar has, inner ones first. A window's brackets are none.
pub fn pairs(text: &[u8]) -> Vec<Pair> {
    let windows = windows(text);
    let (mut open, mut pairs) = (Vec::new(), Vec::new());
    for (place, byte) in text.iter().enumerate() {
        match byte {
            _ if windows.iter().any(|window| window.contains(&place)) => {}
            b'(' => open.push(place),
            b')' => pairs.extend(open.pop().map(|open| Pair { open, close: place })),
            _ => {}
        }
    }
    pairs
}

/// The text without the pair.
pub fn without(text: &[u8], pair: Pair) -> Vec<u8> {
    let Pair { open, close } = pair;
    [&text[..open], &text[open + 1..close], &text[close + 1..]].concat()
}

const INSIDE: [&str; 3] = ["alternative", "conjunction", "bind"];
const LEFT_OF_AND: &str = "left of &";
const RIGHT_OF_AND: &str = "right of &";
const RIGHT_OF_OR: &str = "right of |";
const LEFT_OF_BIND: &str = "left of a bind";
const RIGHT_OF_BIND: &str = "right of a bind";
const UNDER_NOT: &str = "under a not";
const UNDER_WINDOW: &str = "under always or eventually";

/// Every kind of pair that a text needs.
pub fn all() -> Vec<String> {
    let mut all: Vec<String> =
        [LEFT_OF_AND, RIGHT_OF_AND, RIGHT_OF_OR].map(|place| kind(INSIDE[0], place)).into();
    all.push(kind(INSIDE[1], RIGHT_OF_AND));
    for inside in INSIDE {
        let places = [LEFT_OF_BIND, RIGHT_OF_BIND, UNDER_NOT, UNDER_WINDOW];
        all.extend(places.map(|place| kind(inside, place)));
    }
    all
}

fn kind(inside: &str, place: &str) -> String {
    format!("{inside} {place}")
}

/// What stands in the pair, and where the pair stands.
pub fn about(text: &[u8], pair: Pair) -> String {
    let inside = match read_tree(&text[pair.open + 1..pair.close]).as_deref() {
        Ok(Tree::Or(..)) => INSIDE[0],
        Ok(Tree::And(..)) => INSIDE[1],
        Ok(Tree::Until(..) | Tree::Release(..)) => INSIDE[2],
        _ => "unary",
    };
    kind(inside, place(&text[..pair.open], text.get(pair.close + 1)))
}

/// Where a unary stands, by what is before it and the byte behind it: what binds strongest has it.
fn place(before: &[u8], behind: Option<&u8>) -> &'static str {
    // A window's letter stands before its brackets.
    let window = windows(before).pop().filter(|window| window.end == before.len());
    let end = window.map_or(before.len(), |window| window.start);
    match (before[..end].last(), behind) {
        (Some(b'!'), _) => UNDER_NOT,
        (Some(b'G' | b'F'), _) => UNDER_WINDOW,
        (Some(b'U' | b'R'), _) => RIGHT_OF_BIND,
        (_, Some(b'U' | b'R')) => LEFT_OF_BIND,
        (Some(b'&'), _) => RIGHT_OF_AND,
        (_, Some(b'&')) => LEFT_OF_AND,
        (Some(b'|'), _) => RIGHT_OF_OR,
        _ => "where none is needed",
    }
}

#[cfg(test)]
mod tests {
    use super::*;

    fn of(text: &str) -> Vec<String> {
        pairs(text.as_bytes()).into_iter().map(|pair| about(text.as_bytes(), pair)).collect()
    }

    #[test]
    fn pairs_are_told_apart() {
        assert!(of("p0&p1|T").is_empty());
        assert_eq!(of("(p0|p1)&p2"), ["alternative left of &"]);
        assert_eq!(of("p0|p1&(p2&p3)"), ["conjunction right of &"]);
        assert_eq!(of("p0&(p1|p2)&p3"), ["alternative right of &"]);
        assert_eq!(of("p0|(p1|p2)"), ["alternative right of |"]);
        assert_eq!(of("p0|(p1|p2)&p3"), ["alternative left of &"]);
        assert_eq!(of("p0&(p1|p2)U[0,1]T"), ["alternative left of a bind"]);
        assert_eq!(of("!(p1&p2)U[0,1]T"), ["conjunction under a not"]);
        assert_eq!(of("p0R[0,1](p1U[2,3]T)&p2"), ["bind right of a bind"]);
        let nested = ["conjunction left of a bind", "bind under always or eventually"];
        assert_eq!(of("p0|G[0,*]((p1&T)U[2,3]T)"), nested);
        assert_eq!(of("(p0)"), ["unary where none is needed"]);
    }

    #[test]
    fn a_windows_brackets_are_no_pair() {
        assert!(of("F(0,2)p0U[0,1)p1").is_empty());
        assert_eq!(of("F(0,1](p0&p1)"), ["conjunction under always or eventually"]);
        assert_eq!(of("G[0,1)(p0|p1)"), ["alternative under always or eventually"]);
        assert_eq!(of("(p0&p1)U(0,2)p2"), ["conjunction left of a bind"]);
        assert_eq!(of("p0R(0,2)(p1U(3,*]p2)"), ["bind right of a bind"]);
    }

    #[test]
    fn a_pair_is_taken_out_whole() {
        let text = b"!(p0&(p1|p2))";
        let without: Vec<Vec<u8>> = pairs(text).into_iter().map(|p| without(text, p)).collect();
        assert_eq!(without, [b"!(p0&p1|p2)", b"!p0&(p1|p2)"]);
    }
}
