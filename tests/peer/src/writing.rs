//! Tables written out: texts and refusals worked out by hand.

use crate::generate::known_tables::known;
use crate::grammar::{read_requirement, read_tree};
use crate::limits::NO_END;
use crate::refusal::Refusal;
use crate::table::{Node, Table};
use crate::writer::{text_of, write_requirement, Written};

fn node(kind: u64, left: u64, right: u64, lo: u64, hi: u64) -> Node {
    Node { kind, left, right, lo, hi, ..Node::default() }
}

/// What is handed back, and the slice of so many bytes afterwards, all `~` before.
fn written(nodes: &[Node], room: usize) -> (Written, String) {
    let mut slice = vec![b'~'; room];
    let written = write_requirement(&Table { nodes: nodes.to_vec() }, &mut slice);
    (written, String::from_utf8(slice).unwrap())
}

fn accepts(nodes: &[Node], room: usize, slice: &str) {
    let length = slice.trim_end_matches('~').len();
    assert_eq!(written(nodes, room), (Written { refusal: None, length }, slice.to_string()));
}

fn refuses(nodes: &[Node], room: usize, refusal: Refusal) {
    let kept = "~".repeat(room);
    assert_eq!(written(nodes, room), (Written { refusal: Some(refusal), length: 0 }, kept));
}

#[test]
fn known_tables() {
    for known in known() {
        let mut slice = vec![b'~'; 2_000];
        let written = write_requirement(&known.table, &mut slice);
        let text = String::from_utf8(slice[..written.length].to_vec()).unwrap();
        let found = written.refusal.map_or(Ok(text), |refusal| Err(refusal.number()));
        assert_eq!(found, known.wanted, "{}", known.name);
        assert!(slice[written.length..].iter().all(|byte| *byte == b'~'), "{}", known.name);
    }
}

#[test]
fn what_the_reader_gives_comes_back() {
    for text in ["p0|(p1|p2)&!(p3U[0,*]p4)", "((p0&p1))&(p2)", "G[1,2](F[3,4](p0))R[5,6](T)"] {
        let table = read_requirement(text.as_bytes()).unwrap();
        let mut slice = [0; 99];
        let length = write_requirement(&table, &mut slice).length;
        assert_eq!(read_requirement(&slice[..length]), Ok(table), "{text}");
    }
}

#[test]
fn the_slice_keeps_its_remainder() {
    let nodes = [node(1, 7, 0, 0, 0), node(8, 0, 0, 3, NO_END)];
    accepts(&nodes, 8, "G[3,*]p7");
    accepts(&nodes, 11, "G[3,*]p7~~~");
    refuses(&nodes, 7, Refusal::Room);
    refuses(&nodes, 0, Refusal::Room);
    // The end without a number has no other text.
    accepts(&[nodes[0], node(8, 0, 0, 3, 1_000_000_000)], 17, "G[3,1000000000]p7");
}

#[test]
fn shared_nodes_are_written_once_for_each_use() {
    let shared = [node(1, 1, 0, 0, 0), node(2, 0, 0, 0, 0), node(6, 1, 1, 0, 9)];
    accepts(&shared, 15, "!p1R[0,9]!p1~~~");
    let text = read_requirement(b"!p1R[0,9]!p1").unwrap();
    let unshared = [shared[0], shared[1], shared[0], node(2, 2, 0, 0, 0), node(6, 1, 3, 0, 9)];
    assert_eq!(text.nodes, unshared);
}

#[test]
fn predicates_are_judged_by_number_alone() {
    accepts(&[node(1, 15, 0, 0, 0)], 3, "p15");
    refuses(&[node(1, 16, 0, 0, 0)], 3, Refusal::Table);
}

#[test]
fn refusals_count_in_their_order() {
    let leaf = node(0, 0, 0, 0, 0);
    let mut deep = vec![leaf];
    deep.extend((0..33).map(|k| node(2, k, 0, 0, 0)));
    let mut wide = vec![leaf];
    wide.extend((0..6).map(|k| node(3, k, k, 0, 0)));
    for too_large in [deep, wide] {
        refuses(&too_large, 0, Refusal::TooLarge);
        refuses(&too_large, 500, Refusal::TooLarge);
        // The root reaches neither the broken node nor what it stands on.
        let mut broken = too_large.clone();
        let root = broken.pop().unwrap();
        broken.extend([node(1, 16, 0, 0, 0), root]);
        refuses(&broken, 0, Refusal::Table);
        refuses(&broken, 500, Refusal::Table);
    }
    refuses(&[node(9, 0, 0, 0, 0), leaf], 0, Refusal::Table);
    refuses(&[node(9, 0, 0, 0, 0), leaf], 1, Refusal::Table);
    refuses(&[leaf], 0, Refusal::Room);
    refuses(&[], 9, Refusal::Table);
    refuses(&[leaf; 65], 9, Refusal::Table);
}

#[test]
fn without_a_pair_another_tree_is_read_or_none() {
    for (text, without) in [
        ("(p0|p1)&p2", "p0|p1&p2"),
        ("p0&(p1&p2)", "p0&p1&p2"),
        ("p0|(p1|p2)", "p0|p1|p2"),
        ("!(p0U[0,1]p1)", "!p0U[0,1]p1"),
        ("(p0U[0,1]p1)R[0,1]p2", "p0U[0,1]p1R[0,1]p2"),
    ] {
        let tree = read_tree(text.as_bytes()).unwrap();
        assert_eq!(text_of(&tree), text);
        assert_ne!(read_tree(without.as_bytes()), Ok(tree), "{without}");
    }
}
