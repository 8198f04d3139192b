//! Windows without their ends, one by one: every pair of marks with every short window and each kind,
//! held to what the same window gives with its ends moved, or to its refusals. The same in every run.

use crate::compare::{self, WHOLE_CALL, WHOLE_TABLE};
use crate::families::{at, foretold_call, Bench, Failure};
use crate::flat::flat_nodes;
use crate::marked::moved;
use crate::names::REQUIREMENT_BYTES;
use crate::shapes::letter;
use crate::watched::plainly_watched;
use crate::written::read_again;
use peer::generate::calls::{Call, Foretold};
use peer::generate::marks::{every_window, out_of_place, seconds_left};
use peer::generate::requirements::window_text;
use peer::generate::watches::{Offer, Watching};
use peer::limits::LARGEST_END;
use peer::predicate::{Predicate, Predicates, Range, UNSET};
use peer::recording::Recording;
use peer::table::{kind, Node, Table};
use peer::window::Window;

pub fn limit_windows(bench: &mut Bench) -> Result<(), Failure> {
    let cases = |window| (kind::UNTIL..=kind::ALWAYS).map(move |kind| Case::of(kind, window));
    for case in every_window().into_iter().flat_map(cases) {
        at(format!("{:?}\n", case.call.table).as_bytes(), case.held(bench))?;
        bench.tally.add("limits");
    }
    for node in out_of_place() {
        let table = Table { nodes: vec![Node::default(), node] };
        let shown = format!("{table:?}\n").into_bytes();
        at(&shown, refused(bench, &Call { table, ..near() }))?;
        bench.tally.add("limits");
    }
    Ok(())
}

/// "An excluded low end reads as lo + 1, an excluded high end as hi − 1": margin and verdict, every cell,
/// are those of the table with its ends so moved.
pub fn same_when_moved(bench: &mut Bench, call: &Call) -> Result<(), String> {
    let Some(table) = moved(&call.table) else { return Ok(()) };
    let other = Call { table, ..call.clone() };
    for judged in [compare::margins, compare::verdicts] {
        let (own, theirs) =
            (judged(bench.others, call, WHOLE_CALL)?, judged(bench.others, &other, WHOLE_CALL)?);
        if own != theirs {
            return Err(format!("{own:?}, with excluded ends moved {theirs:?}"));
        }
    }
    bench.tally.add("margin call: excluded ends moved");
    Ok(())
}

/// One operator over one or two predicates.
struct Case {
    call: Call,
    /// The requirement's text, if the marks can be written.
    text: Option<String>,
    /// The window as it is read, if it is not refused.
    read: Option<Window>,
}

impl Case {
    fn of(kind: u64, window: Node) -> Case {
        let leaf = |left| Node { kind: kind::PREDICATE, left, ..Node::default() };
        let binary = matches!(kind, kind::UNTIL | kind::RELEASE);
        let root = Node { kind, right: u64::from(binary), ..window };
        let nodes = if binary { vec![leaf(0), leaf(1), root] } else { vec![leaf(0), root] };
        let letter = letter(&root).filter(|_| root.open_lo.max(root.open_hi) <= 1);
        let sign = letter.map(|letter| format!("{letter}{}", window_text(root.window())));
        let text =
            sign.map(|sign| if binary { format!("p0{sign}p1") } else { format!("{sign}p0") });
        let recorded = if root.lo < LARGEST_END / 2 { near() } else { far() };
        Case { call: Call { table: Table { nodes }, ..recorded }, text, read: seconds_left(&root) }
    }

    fn held(&self, bench: &mut Bench) -> Result<(), String> {
        let good = self.read.is_some();
        if let Some(text) = &self.text {
            let number = compare::requirements(bench.others, text.as_bytes(), WHOLE_TABLE)?;
            if number != if good { 0 } else { 2 } {
                return Err(format!("{text} is refused by {number}"));
            }
        }
        if good {
            self.accepted(bench)
        } else {
            refused(bench, &self.call)
        }
    }

    fn accepted(&self, bench: &mut Bench) -> Result<(), String> {
        let (call, text) = (&self.call, self.text.as_deref().unwrap_or_default());
        foretold(bench, call, 0)?;
        same_when_moved(bench, call)?;
        let root = |table: Table| table.nodes.last().map(Node::window);
        let read = moved(&call.table).and_then(root);
        if read.is_some() && read != self.read {
            return Err(format!("{text} is read as {read:?}, not {:?}", self.read));
        }
        let written = written(bench, &call.table)?;
        if written != (0, text.to_string()) {
            return Err(format!("written as {written:?}, not {text}"));
        }
        read_again(bench, text.as_bytes())
    }
}

/// Refused by 3 in every place, also where the root does not reach the node.
fn refused(bench: &mut Bench, call: &Call) -> Result<(), String> {
    let mut unreached = call.clone();
    unreached.table.nodes.push(Node::default());
    for call in [call, &unreached] {
        foretold(bench, call, 3)?;
        let written = written(bench, &call.table)?;
        if written != (3, String::new()) {
            return Err(format!("written as {written:?}"));
        }
    }
    Ok(())
}

/// Margin, verdict and watch give this number.
fn foretold(bench: &mut Bench, call: &Call, number: u64) -> Result<(), String> {
    let foretold = Foretold { call: call.clone(), margin: number, verdict: number };
    foretold_call(bench, &foretold).map_err(|failure| failure.what)?;
    let rows = call.recording.times.iter().zip(&call.recording.values);
    let offer = |(&time, &value)| Offer { time, values: vec![value], number: 0 };
    let offers = rows.map(offer).collect();
    let (table, scales) = (call.table.clone(), call.recording.scales.clone());
    let watching = Watching { table, predicates: call.predicates, scales, number, offers };
    plainly_watched(bench, &watching, None)
}

/// The number and the text that a table is written as.
fn written(bench: &Bench, table: &Table) -> Result<(u64, String), String> {
    let (nodes, count) = (flat_nodes(table), table.count() as u64);
    let (written, slice) = compare::writings(bench.others, &nodes, count, REQUIREMENT_BYTES)?;
    Ok((written.number, slice[..written.length].to_string()))
}

/// Ten one-second rows, each with a value of its own.
fn near() -> Call {
    recorded((0..10).collect(), 1)
}

/// Rows about the limit of a window's ends, and one long before them.
fn far() -> Call {
    recorded([0].into_iter().chain(LARGEST_END - 4..=LARGEST_END + 4).collect(), LARGEST_END)
}

fn recorded(times: Vec<u64>, step: u64) -> Call {
    let values = vec![5, 7, 2, 9, -4, 8, 1, 6, 3, 4];
    let mut predicates: Predicates = [UNSET; 16];
    predicates[0] = Predicate { channel: 0, range: Range::AtLeast(3) };
    predicates[1] = Predicate { channel: 0, range: Range::AtMost(6) };
    let recording = Recording { channels: 1, scales: vec![1], times, values };
    let work = (0..100).collect();
    Call { table: Table::default(), predicates, recording, step, drift: 9, work }
}
