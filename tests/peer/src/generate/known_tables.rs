//! Tables whose text, or whose refusal, is known beforehand: every place for parentheses, shared and
//! unreached nodes, and each limit.

use crate::grammar::read_requirement;
use crate::limits::NO_END;
use crate::table::{kind, Node, Table};

pub struct Known {
    pub name: String,
    pub table: Table,
    /// The text, or the number that refuses the table however long the slice is.
    pub wanted: Result<String, u64>,
    /// Whether the table is the reader's.
    pub as_read: bool,
}

pub fn known() -> Vec<Known> {
    let mut known: Vec<Known> = LEAST.iter().map(|text| read(text, text)).collect();
    known.extend(SPARE.iter().map(|(text, least)| read(text, least)));
    known.extend(enclosings());
    known.extend(shared());
    known.extend(broken());
    known.push(longest());
    known
}

/// Texts in which every pair of parentheses is needed.
const LEAST: &[&str] = &[
    "T", "p0", "p9", "p10", "p15", "!p3", "!!T", "p0&p1", "p0|p1", "p0U[0,0]p1", "p0R[1,*]p1",
    "F[0,1000000000]p1", "G[1000000000,*]T", "F[0,*]p0", "G[999999999,1000000000]p0",
    "G[1000000000,1000000000]p15",
    // Alternatives and conjunctions, which group to the left.
    "p0|p1|p2", "p0|(p1|p2)", "p0|p1|(p2|p3)", "p0|(p1|p2)|p3", "p0|(p1|(p2|p3))", "p0&p1&p2",
    "p0&(p1&p2)", "p0&(p1&p2)&p3", "p0&(p1&(p2&p3))", "p0&p1|p2&p3", "p0|p1&p2", "(p0|p1)&p2",
    "p0&(p1|p2)", "(p0|p1)&(p2|p3)", "p0&(p1|p2)&p3", "p0|(p1|p2)&p3", "(p0|p1)&p2|p3",
    "p0|p1&(p2&p3)", // Operands of until and release are unaries.
    "p0U[0,1]p1&p2", "p0&p1U[0,1]p2", "p0|p1R[0,1]p2", "(p0&p1)U[0,1]p2", "p0R[0,1](p1&p2)",
    "(p0|p1)R[0,1](p2|p3)", "(p0U[0,1]p1)U[2,3]p2", "p0U[0,1](p1R[2,3]p2)", "!p0U[0,1]!p1",
    "G[0,1]p0R[0,1]F[0,1]p1", "p0&(p1|p2)U[0,1]p3", "p0&(p1&p2)U[0,1]p3",
    "(p0U[0,1]p1)R[0,*](p2R[0,1]p3)",
    // So are those of not, always and eventually.
    "!(p0|p1)", "!(p0&p1)", "!(p0U[0,1]p1)", "G[0,1](p0|p1)", "F[0,1](p0&p1)", "G[0,1](p0R[0,1]p1)",
    "!G[0,1]!p0", "G[0,*]F[0,9]p0", "!p0|p1", "!p0&p1", "!(p0|p1)&p2", "p0&!(p1&p2)",
    "!(p0|p1)U[0,1]p2", "!!(p0&p1)", "G[0,1]!(p0U[2,*]F[0,1](T|p2))",
    // Excluded ends: a window's parenthesis is no pair.
    "F(0,1]p0", "G[0,1)p0", "p0U(0,2)p1", "p0R(5,*]p1", "G(1000000000,*]T",
    "F[999999999,1000000000)p0", "F(0,1](p0&p1)", "(p0|p1)U[0,1)(p2|p3)", "(p0U(0,2)p1)R(3,9]p2",
    "G[0,1)!(p0U(2,*]F(0,2)(T|p2))",
];

/// Texts with pairs to spare, and what is left without these.
const SPARE: &[(&str, &str)] = &[
    ("((p0))", "p0"),
    ("(p0&p1)&p2", "p0&p1&p2"),
    ("(p0|p1)|p2", "p0|p1|p2"),
    ("(p0&p1)|(p2&p3)", "p0&p1|p2&p3"),
    ("p0|(p1&(p2))", "p0|p1&p2"),
    ("p0|((p1|p2))", "p0|(p1|p2)"),
    ("(p0U[0,1]p1)&(p2R[0,1]p3)", "p0U[0,1]p1&p2R[0,1]p3"),
    ("(!p0)U[0,1](G[0,1]p1)", "!p0U[0,1]G[0,1]p1"),
    ("!(!(p0))", "!!p0"),
    ("G[0,1](F[0,1](p0))", "G[0,1]F[0,1]p0"),
    ("(G[0,1](p0&p1))", "G[0,1](p0&p1)"),
    ("((p0&p1)&(p2&p3))|T", "p0&p1&(p2&p3)|T"),
    ("F(0,1](p0)", "F(0,1]p0"),
    ("(p0)U[0,2)((p1)&p2)", "p0U[0,2)(p1&p2)"),
];

/// The table that the reader gives for a text.
fn read(text: &str, least: &str) -> Known {
    let table = read_requirement(text.as_bytes()).expect("a text that the grammar has");
    Known { name: text.to_string(), table, wanted: Ok(least.to_string()), as_read: true }
}

fn known_nodes(name: &str, nodes: Vec<Node>, wanted: Result<String, u64>) -> Known {
    Known { name: name.to_string(), table: Table { nodes }, wanted, as_read: false }
}

/// The predicate of number 0.
const LEAF: Node =
    Node { kind: kind::PREDICATE, left: 0, right: 0, lo: 0, hi: 0, open_lo: 0, open_hi: 0 };

fn of(kind: u64, left: usize, right: usize) -> Node {
    Node { kind, left: left as u64, right: right as u64, ..Node::default() }
}

/// So many nodes more, each over the one before it and perhaps the first.
fn grown(mut nodes: Vec<Node>, count: usize, node: impl Fn(usize) -> Node) -> Vec<Node> {
    for _ in 0..count {
        nodes.push(node(nodes.len() - 1));
    }
    nodes
}

fn nots(nodes: Vec<Node>, count: usize) -> Vec<Node> {
    grown(nodes, count, |last| of(kind::NOT, last, 0))
}

/// 32 and 33 enclosings, with and without parentheses among them.
fn enclosings() -> Vec<Known> {
    let many = |count: usize| format!("{}p0", "!".repeat(count));
    // A not over a conjunction, so many times: two enclosings each.
    let both = |count: usize| {
        let pairs = grown(vec![LEAF], 2 * count, |last| match last % 2 {
            0 => of(kind::AND, 0, last),
            _ => of(kind::NOT, last, 0),
        });
        (pairs, format!("{}p0{}", "!(p0&".repeat(count), ")".repeat(count)))
    };
    let (sixteen, sixteen_text) = both(16);
    let (fifteen, fifteen_text) = both(15);
    // Conjunctions on the right of conjunctions, 31 of them: 30 pairs, and 63 nodes.
    let right = grown(vec![LEAF], 31, |last| of(kind::AND, 0, last));
    let right_text = format!("{}p0&p0{}", "p0&(".repeat(30), ")".repeat(30));
    let siblings = [nots(vec![LEAF], 32), vec![of(kind::AND, 32, 29)]].concat();
    let marked = Node { hi: 2, open_lo: 1, open_hi: 1, ..of(kind::ALWAYS, 0, 0) };
    let opened = |count| grown(vec![LEAF], count, |last| Node { left: last as u64, ..marked });
    let opened_text = format!("{}p0", "G(0,2)".repeat(32));
    vec![
        known_nodes("32 nots", nots(vec![LEAF], 32), Ok(many(32))),
        known_nodes("33 nots", nots(vec![LEAF], 33), Err(14)),
        known_nodes("63 nots", nots(vec![LEAF], 63), Err(14)),
        known_nodes("65 nodes, 64 nots", nots(vec![LEAF], 64), Err(3)),
        known_nodes("31 enclosings, pairs", nots(fifteen, 1), Ok(format!("!{fifteen_text}"))),
        known_nodes("32 enclosings, pairs", sixteen.clone(), Ok(sixteen_text)),
        known_nodes("33 enclosings, 17 without pairs", nots(sixteen, 1), Err(14)),
        known_nodes("30 pairs", right.clone(), Ok(right_text.clone())),
        known_nodes(
            "32 enclosings, 64 nodes",
            nots(right.clone(), 1),
            Ok(format!("!({right_text})")),
        ),
        known_nodes("33 enclosings, 65 nodes", nots(right, 2), Err(14)),
        known_nodes("siblings don't add", siblings, Ok(format!("{}&{}", many(32), many(29)))),
        known_nodes("32 alwayses without their ends", opened(32), Ok(opened_text)),
        known_nodes("33 alwayses without their ends", opened(33), Err(14)),
    ]
}

/// "Shared nodes are written once for each use", and nodes that the root doesn't reach are not.
fn shared() -> Vec<Known> {
    let chain = |count| grown(vec![LEAF], count, |last| of(kind::AND, last, 0));
    let doubled = |count, kind| grown(vec![LEAF], count, |last| of(kind, last, last));
    let doubled_text = |count, sign: &str| {
        let once = |text: String| format!("{text}{sign}{text}");
        let again = |text: String, _| format!("{text}{sign}({text})");
        (1..count).fold(once("p0".to_string()), again)
    };
    let joined = |count| vec!["p0"; count].join("&");
    let second = Node { left: 1, ..LEAF };
    let hidden = [doubled(62, kind::AND), vec![second]].concat();
    let until = Node { lo: 5, hi: NO_END, ..of(kind::UNTIL, 1, 1) };
    let other_order = vec![LEAF, second, of(kind::OR, 1, 0)];
    vec![
        known_nodes("63 nodes, a leaf shared", chain(31), Ok(joined(32))),
        known_nodes("64 nodes", nots(chain(31), 1), Ok(format!("!({})", joined(32)))),
        known_nodes("65 nodes", chain(32), Err(14)),
        known_nodes("65 nodes, a not on top", nots(chain(31), 2), Err(14)),
        known_nodes("doubled 5 times", doubled(5, kind::AND), Ok(doubled_text(5, "&"))),
        known_nodes("or doubled 5 times", doubled(5, kind::OR), Ok(doubled_text(5, "|"))),
        known_nodes("doubled 6 times", doubled(6, kind::AND), Err(14)),
        known_nodes("doubled 63 times", doubled(63, kind::AND), Err(14)),
        known_nodes("until doubled 63 times", doubled(63, kind::UNTIL), Err(14)),
        known_nodes("doubled 62 times, unreached", hidden, Ok("p1".to_string())),
        known_nodes("right before left", other_order, Ok("p1|p0".to_string())),
        known_nodes(
            "a shared bind's operand",
            vec![LEAF, of(kind::NOT, 0, 0), until],
            Ok("!p0U[5,*]!p0".to_string()),
        ),
    ]
}

fn broken() -> Vec<Known> {
    let odd = Node { hi: 1, ..LEAF };
    let above = Node { left: 16, ..LEAF };
    let mut crowded = grown(vec![LEAF], 63, |last| of(kind::AND, last, last));
    crowded[40].lo = 1;
    let mut hidden = nots(vec![LEAF, LEAF], 34);
    hidden[1] = odd;
    hidden[2].left = 0;
    vec![
        known_nodes("no node", Vec::new(), Err(3)),
        known_nodes("65 leaves", vec![LEAF; 65], Err(3)),
        known_nodes("64 leaves", vec![LEAF; 64], Ok("p0".to_string())),
        known_nodes("predicate 16", vec![above], Err(3)),
        known_nodes("predicate 16, unreached", vec![above, LEAF], Err(3)),
        known_nodes("an odd node, unreached", vec![LEAF, odd, of(kind::NOT, 0, 0)], Err(3)),
        known_nodes("a child of its own", vec![of(kind::NOT, 0, 0)], Err(3)),
        known_nodes("too large and broken", crowded, Err(3)),
        known_nodes("34 enclosings, broken where unreached", hidden, Err(3)),
    ]
}

/// 62 operators with the longest windows, and two leaves: no text is longer.
fn longest() -> Known {
    let end = 1_000_000_000;
    let window = |node: Node| Node { lo: end, hi: end, ..node };
    let always = |last| window(of(kind::ALWAYS, last, 0));
    let leaf = Node { left: 15, ..LEAF };
    let mut nodes = grown(vec![leaf], 31, always);
    nodes.push(leaf);
    nodes = grown(nodes, 30, always);
    nodes.push(window(of(kind::UNTIL, 31, 62)));
    let (long, until) = ("G[1000000000,1000000000]", "U[1000000000,1000000000]");
    let text = format!("{}p15{until}{}p15", long.repeat(31), long.repeat(30));
    known_nodes("1,494 bytes", nodes, Ok(text))
}
