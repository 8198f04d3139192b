//! Tables written out: held to the text or the number foretold, to the slice byte for byte, and to
//! what the reader makes of the text.

use crate::compare::{self, pattern};
use crate::families::{at, tally_refused, Bench, Failure};
use crate::flat::{self, flat_nodes};
use crate::library::{NODES, NODE_NUMBERS};
use crate::marked;
use crate::names::{Written, REQUIREMENT_BYTES};
use crate::pairs::{about, pairs, without};
use peer::generate::known_tables::known;
use peer::generate::prng::Prng;
use peer::generate::requirements::{enclosings, least};
use peer::generate::tables::{unshared, uses, writing, Writing};
use peer::grammar::{read_requirement, read_tree};
use peer::limits::{MOST_ENCLOSINGS, MOST_NODES};
use peer::refusal::Refusal;
use peer::table::{Node, Table};
use peer::writer::write_requirement;

/// The family.
pub const WRITTEN: &str = "written";

const AS_READ: &str = "as the reader lays it out";
const OTHERWISE: &str = "laid out otherwise";
const SHARED: &str = "a node shared";
const UNREACHED: &str = "a node unreached";
const MOST_NODES_THERE: &str = "64 nodes";
const MOST_ENCLOSINGS_THERE: &str = "32 enclosings";
const NODE_TOO_MANY: &str = "65 nodes";
const ENCLOSING_TOO_MANY: &str = "33 enclosings";
const PAIRS_TOO_MANY: &str = "over 32 enclosings by pairs alone";
const BROKEN_REACHED: &str = "broken where the root reaches";
const BROKEN_UNREACHED: &str = "broken where the root does not reach";
const BROKEN_AND_LARGE: &str = "broken and too large";

/// What a table that is written, or refused, may be about.
pub const ALL: [&str; 12] = [
    AS_READ, OTHERWISE, SHARED, UNREACHED, MOST_NODES_THERE, MOST_ENCLOSINGS_THERE, NODE_TOO_MANY,
    ENCLOSING_TOO_MANY, PAIRS_TOO_MANY, BROKEN_REACHED, BROKEN_UNREACHED, BROKEN_AND_LARGE,
];

pub fn written_table(bench: &mut Bench, rng: &mut Prng) -> Result<(), Failure> {
    let writing = writing(rng);
    let shown = format!("{:?}\n", writing.table).into_bytes();
    let nodes = with_noise(&writing.table);
    let own = (NODE_NUMBERS * writing.table.count()).min(NODES);
    // Any count beyond the nodes there are is refused alike.
    let count = match writing.table.count() {
        count if count > MOST_NODES => rng.pick(&[65, 66, 1 << 32, u64::MAX]),
        count => count as u64,
    };
    let lent = &nodes[..rng.pick(&[own, NODES, nodes.len()])];
    let any = rng.below(writing.text.len() + 40);
    at(&shown, foretold(bench, &writing, lent, count, &[any]))?;
    for about in about_table(&writing) {
        bench.tally.add(format!("{WRITTEN}: {about}"));
    }
    if writing.number == 0 {
        for form in marked::reached(&writing.table) {
            bench.tally.add(format!("{WRITTEN}: {form}"));
        }
    }
    tally_refused(bench.tally, &writing.table);
    if rng.once_in(4) {
        // What the slice does not have reads as 0: the table may be another one.
        let number = at(&shown, cut_table(bench, &nodes[..rng.below(own + 1)], count))?;
        bench.tally.add(format!("{WRITTEN}, cut refused={number}"));
    }
    Ok(())
}

/// What is lent beyond the last node's place of all is not looked at.
fn with_noise(table: &Table) -> Vec<u64> {
    [&flat_nodes(table)[..], &[u64::MAX; 3]].concat()
}

/// Tables whose text or refusal is known: the same in every run.
pub fn limit_tables(bench: &mut Bench) -> Result<(), Failure> {
    for known in known() {
        let shown = format!("{}: {:?}\n", known.name, known.table).into_bytes();
        let (number, text) = known.wanted.map_or_else(|n| (n, String::new()), |text| (0, text));
        let writing = Writing { table: known.table, number, text, as_read: known.as_read };
        let nodes = with_noise(&writing.table);
        let count = writing.table.count() as u64;
        at(&shown, foretold(bench, &writing, &nodes, count, &[1, 60]))?;
        bench.tally.add("limits");
    }
    Ok(())
}

/// "For a table that the reader can produce, reading the text gives that table back": of a text
/// that the reader accepts, which is never too large and whose table has no longer text.
pub fn read_again(bench: &mut Bench, text: &[u8]) -> Result<(), String> {
    let Ok(table) = read_requirement(text) else { return Ok(()) };
    let count = table.count() as u64;
    let nodes = flat_nodes(&table);
    let (written, slice) = compare::writings(bench.others, &nodes, count, REQUIREMENT_BYTES)?;
    if written.number != 0 || written.length > text.len() {
        return Err(format!("what was read is written as {written:?}"));
    }
    bench.tally.add(format!("{WRITTEN}: read, written, read"));
    checked_text(&table, &slice[..written.length], true)
}

/// Room for the text: none, one byte too few, as many as needed, one more, as many as any text
/// needs.
fn rooms(writing: &Writing) -> Vec<usize> {
    let need = writing.text.len();
    let mut rooms = vec![0, need, need + 1, REQUIREMENT_BYTES];
    rooms.extend(need.checked_sub(1));
    rooms
}

/// The table with every room there is to try.
fn foretold(
    bench: &mut Bench,
    writing: &Writing,
    nodes: &[u64],
    count: u64,
    further: &[usize],
) -> Result<(), String> {
    for room in rooms(writing).into_iter().chain(further.iter().copied()) {
        let (written, slice) = compare::writings(bench.others, nodes, count, room)?;
        let short = writing.number == 0 && room < writing.text.len();
        let number = if short { 15 } else { writing.number };
        let text = if number == 0 { writing.text.as_str() } else { "" };
        held(written, &slice, number, text)?;
        bench.tally.add(format!("{WRITTEN} refused={number}"));
    }
    if writing.number == 0 {
        checked_text(&writing.table, &writing.text, writing.as_read)?;
        let text = writing.text.as_bytes();
        for pair in pairs(text) {
            bench.tally.add(format!("{WRITTEN}: {}", about(text, pair)));
        }
    }
    Ok(())
}

/// Number, length, and every byte: the text in front, what was there before behind it.
fn held(written: Written, slice: &str, number: u64, text: &str) -> Result<(), String> {
    let wanted = Written { number, length: text.len() };
    if written != wanted {
        return Err(format!("{written:?}, foretold {wanted:?}"));
    }
    let left = format!("{text}{}", &pattern(slice.len())[text.len()..]);
    if slice != left {
        return Err(format!("the slice is {slice:?}, foretold {left:?}"));
    }
    Ok(())
}

/// What the reader makes of an accepted table's text: the tree unshared, or the table itself where
/// the reader can produce it; and without any pair of parentheses another tree or none. Then the
/// text by a second way.
fn checked_text(table: &Table, text: &str, as_read: bool) -> Result<(), String> {
    let tree = table.trees().remove(table.count() - 1);
    let read = read_requirement(text.as_bytes());
    let unshared = Table::of_tree(&tree);
    if as_read && unshared != *table {
        return Err("no text gives this table".to_string());
    }
    if read != Ok(unshared) {
        return Err(format!("the text {text:?} is read as {read:?}"));
    }
    for pair in pairs(text.as_bytes()) {
        let without = without(text.as_bytes(), pair);
        if read_tree(&without).is_ok_and(|other| other == tree) {
            return Err(format!("in {text:?} a pair is not needed: {pair:?}"));
        }
    }
    let second = least(&tree);
    if text != second || text.len() > REQUIREMENT_BYTES {
        return Err(format!("a text of {} bytes, {text:?}, not {second:?}", text.len()));
    }
    Ok(())
}

/// A table of which nothing is foretold: the refusal.
fn cut_table(bench: &Bench, nodes: &[u64], count: u64) -> Result<u64, String> {
    let (written, slice) = compare::writings(bench.others, nodes, count, REQUIREMENT_BYTES)?;
    let text = if written.number == 0 { &slice[..written.length] } else { "" };
    held(written, &slice, written.number, text)?;
    if written.number == 0 {
        checked_text(&flat::table(nodes, count), text, false)?;
    }
    Ok(written.number)
}

/// What the table is about.
fn about_table(writing: &Writing) -> Vec<&'static str> {
    let (table, uses) = (&writing.table, uses(&writing.table));
    if writing.number == 3 {
        return about_broken(table, &uses);
    }
    if writing.number == 14 {
        return about_large(table);
    }
    let tree = table.trees().remove(table.count() - 1);
    let mut about = Vec::new();
    for (what, found) in [
        (AS_READ, writing.as_read),
        (OTHERWISE, !writing.as_read),
        (SHARED, uses.iter().any(|uses| *uses > 1)),
        (UNREACHED, uses.contains(&0)),
        (MOST_NODES_THERE, tree.size() == MOST_NODES),
        (MOST_ENCLOSINGS_THERE, enclosings(&tree).0 == MOST_ENCLOSINGS),
    ] {
        about.extend(found.then_some(what));
    }
    about
}

/// What is too large. A tree is unfolded only where it has no more nodes than a text may have.
fn about_large(table: &Table) -> Vec<&'static str> {
    let nodes = unshared(table);
    if nodes > MOST_NODES as u64 {
        return if nodes == 65 { vec![NODE_TOO_MANY] } else { Vec::new() };
    }
    let (all, without_pairs) = enclosings(&table.trees()[table.count() - 1]);
    let mut about = Vec::new();
    about.extend((all == MOST_ENCLOSINGS + 1).then_some(ENCLOSING_TOO_MANY));
    about.extend((without_pairs <= MOST_ENCLOSINGS).then_some(PAIRS_TOO_MANY));
    about
}

/// Where a table's one broken rule stands, and whether it would be too large with another node
/// there.
fn about_broken(table: &Table, uses: &[u64]) -> Vec<&'static str> {
    for (k, uses) in uses.iter().enumerate().take(MOST_NODES) {
        let mut mended = table.clone();
        mended.nodes[k] = Node::default();
        if !mended.broken_alone() {
            let mut about = vec![if *uses > 0 { BROKEN_REACHED } else { BROKEN_UNREACHED }];
            let refusal = write_requirement(&mended, &mut []).refusal;
            about.extend((refusal == Some(Refusal::TooLarge)).then_some(BROKEN_AND_LARGE));
            return about;
        }
    }
    Vec::new()
}
