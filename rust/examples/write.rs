//! Builds requirement tables as a form would, prints each as text for a `req=` line, and reads the
//! text back.
//!
//! `cargo run --example write`

use varmityep::{kind, Node, Refusal, Table, NO_END};

/// A table that is being built: each part gives the number of its node.
#[derive(Default)]
struct Form {
    table: Table,
}

impl Form {
    fn add(&mut self, node: Node) -> u64 {
        self.table.nodes.push(node);
        self.table.nodes.len() as u64 - 1
    }

    fn predicate(&mut self, number: u64) -> u64 {
        self.add(Node { kind: kind::PREDICATE, left: number, ..Node::default() })
    }

    fn both(&mut self, kind: u64, left: u64, right: u64) -> u64 {
        self.add(Node { kind, left, right, ..Node::default() })
    }

    fn always(&mut self, left: u64) -> u64 {
        self.add(Node { kind: kind::ALWAYS, left, hi: NO_END, ..Node::default() })
    }

    fn within(&mut self, seconds: u64, left: u64) -> u64 {
        self.add(Node { kind: kind::EVENTUALLY, left, hi: seconds, ..Node::default() })
    }

    fn until(&mut self, seconds: u64, left: u64, right: u64) -> u64 {
        self.add(Node { kind: kind::UNTIL, left, right, hi: seconds, ..Node::default() })
    }
}

/// Within 90 minutes the output reaches its floor for good, or the card is in service; and the pump
/// current never exceeds its ceiling.
fn acceptance() -> Table {
    let mut form = Form::default();
    let floor = form.predicate(0);
    let kept = form.always(floor);
    let reached = form.within(5_400, kept);
    let service = form.predicate(4);
    let either = form.both(kind::OR, reached, service);
    let ceiling = form.predicate(2);
    let below = form.always(ceiling);
    form.both(kind::AND, either, below);
    form.table
}

/// The first pump is on until, within 15 minutes, both are, for good. The first pump's predicate is
/// one node with two uses.
fn hand_over() -> Table {
    let mut form = Form::default();
    let first = form.predicate(0);
    let second = form.predicate(1);
    let both = form.both(kind::AND, first, second);
    let kept = form.always(both);
    form.until(900, first, kept);
    form.table
}

/// Each node is the one before it twice: seven nodes, 127 once each use is written.
fn doubled() -> Table {
    let mut form = Form::default();
    let mut last = form.predicate(0);
    for _ in 0..6 {
        last = form.both(kind::AND, last, last);
    }
    form.table
}

/// The text, and how it reads.
fn shown(table: &Table) -> Result<String, Refusal> {
    let text = table.write()?;
    let read = varmityep::read_requirement(text.as_bytes())?;
    let how = if read == *table { "the same table" } else { "the same tree, unshared" };
    Ok(format!("{text}\nread back: {} nodes, {how}", read.nodes.len()))
}

fn main() {
    for table in [acceptance(), hand_over(), doubled()] {
        let shown = shown(&table).unwrap_or_else(|refusal| format!("refused={}", refusal.number()));
        println!("{} nodes: {shown}", table.nodes.len());
    }
}
