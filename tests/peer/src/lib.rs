//! Document 01 with Changes 1 and 3 to 8 of document 02 as literal definitions.
//!
//! Nothing here is fast and nothing is shared with the proved library: each definition is read
//! from the papers anew, each largest and smallest is taken afresh, so that an agreement of the
//! two says something. The order of the modules is that of document 01.

pub mod limits;
pub mod refusal;

// The recording and its distances.
pub mod predicate;
pub mod recording;

// The requirement table.
pub mod margin;
pub mod memo;
pub mod table;
pub mod tree;
pub mod truth;
pub mod window;

// Strengthening and the verdict.
pub mod history;
pub mod strengthen;
pub mod verdict;

// Requirement text, the sheet, the rows, the program.
pub mod answer;
pub mod fields;
pub mod grammar;
pub mod rows;
pub mod sheet;
pub mod writer;

// A margin while the card runs.
pub mod watch;

// Second ways to the same answers, which the driver compares with the first.
pub mod between;
pub mod carried;
pub mod levels;

pub mod generate;

#[cfg(test)]
mod half_open;
#[cfg(test)]
mod scales;
#[cfg(test)]
mod several;
#[cfg(test)]
mod watching;
#[cfg(test)]
mod worked;
#[cfg(test)]
mod writing;
