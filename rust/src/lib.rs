//! Margins and verdicts of amplifier recordings: safe Rust over the proved static library.
//!
//! [`answer`] gives the lines that the program `margin` prints for a sheet. The parts of that answer
//! can be taken one by one: [`read_sheet`], [`read_requirement`], [`read_rows`], [`margin()`] and
//! [`verdict`]; `examples/judge.rs` puts them together. [`Table::write`] gives a requirement's text
//! for a sheet that is being made, as `examples/write.rs` does. A [`Watch`] gives the margin while
//! the rows come, as `examples/watch.rs` does: its size is fixed, [`Watch::NUMBERS`] + [`Watch::CELLS`]
//! words of 8 bytes, since it stores no row. What an input is refused for is a [`Refusal`].
//!
//! Here numbers are only brought into and out of the flat form that the library takes. Whatever is
//! decided is decided in the library, which is proved.

#![deny(unsafe_code)]

mod judge;
#[allow(unsafe_code)]
mod names;
mod predicate;
mod refusal;
mod sheet;
mod table;
mod watch;

pub use judge::{margin, verdict, Judgement, Recording, Verdict, MOST_SCALE, TOP};
pub use predicate::{Predicate, Predicates, Range};
pub use refusal::Refusal;
pub use sheet::{read_rows, read_sheet, Counts, Sheet, MOST_REQUIREMENTS};
pub use table::{kind, read_requirement, Node, Table, MOST_REQUIREMENT_BYTES, NO_END};
pub use watch::Watch;

/// Measured rows that [`answer`] has room for; more are refused by 5.
pub const ANSWER_ROWS: usize = 2_048;
/// Cells that [`answer`] has; a verdict that needs more is refused by 8.
pub const ANSWER_CELLS: usize = 8_192;

/// The lines that are printed for a sheet, their line feeds included: one for each requirement, a
/// refusal too.
///
/// Where there are several, `req=` and the requirement's number, counted from 0, stand before each;
/// they come by rising margin, equal margins in sheet order, and the refused ones follow, in sheet
/// order. A sheet refused by 1 or 12 gives one line, without `req=`.
pub fn answer(text: &[u8]) -> String {
    let mut lines = [0; names::LINES];
    let length = names::answer(text, &mut lines);
    String::from_utf8_lossy(&lines[..length]).into_owned()
}
