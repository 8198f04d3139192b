//! The numbers by which an input is refused, in the papers' words.

use std::error::Error;
use std::fmt;

/// Why an input is refused. Of several reasons the first of this list is given, whatever the size
/// of its number.
#[derive(Clone, Copy, PartialEq, Eq, Hash, Debug)]
pub enum Refusal {
    Text = 1,
    TooManyRequirements = 12,
    Requirement = 2,
    Table = 3,
    TooLarge = 14,
    Room = 15,
    Predicates = 4,
    Scales = 13,
    Nested = 16,
    Samples = 5,
    Times = 6,
    Values = 7,
    Work = 8,
    StepOrDrift = 9,
    Gap = 10,
    Jump = 11,
}

impl Refusal {
    /// Every refusal, in the order in which they count.
    pub const ALL: [Refusal; 16] = [
        Refusal::Text,
        Refusal::TooManyRequirements,
        Refusal::Requirement,
        Refusal::Table,
        Refusal::TooLarge,
        Refusal::Room,
        Refusal::Predicates,
        Refusal::Scales,
        Refusal::Nested,
        Refusal::Samples,
        Refusal::Times,
        Refusal::Values,
        Refusal::Work,
        Refusal::StepOrDrift,
        Refusal::Gap,
        Refusal::Jump,
    ];

    /// The papers' number.
    pub fn number(self) -> u64 {
        self as u64
    }

    /// Nothing, or the refusal of that number.
    ///
    /// # Panics
    /// For a number that no refusal has, which the library never returns.
    pub(crate) fn check(number: u64) -> Result<(), Refusal> {
        if number == 0 {
            return Ok(());
        }
        let refusal = Refusal::ALL.into_iter().find(|refusal| refusal.number() == number);
        Err(refusal.expect("a number of the library's list"))
    }
}

impl fmt::Display for Refusal {
    fn fmt(&self, f: &mut fmt::Formatter<'_>) -> fmt::Result {
        f.write_str(match self {
            Refusal::Text => {
                "a line breaks the text form or is missing, or the text exceeds 65,536 bytes"
            }
            Refusal::TooManyRequirements => "a seventeenth `req=` line",
            Refusal::Requirement => "requirement text outside the grammar or its limits",
            Refusal::Table => {
                "a table rule broken, or a node names a predicate that is above 15 or, where \
                 predicates are passed, unset"
            }
            Refusal::TooLarge => {
                "a table to be written whose tree, unshared, exceeds 64 nodes, or its text 32 \
                 enclosings"
            }
            Refusal::Room => "no room for the written text",
            Refusal::Predicates => {
                "channels not 1 to 8, or a set predicate with a channel not below that count, an \
                 end out of range or lo > hi"
            }
            Refusal::Scales => "a scale out of range",
            Refusal::Nested => {
                "a table to be watched in which a temporal operator stands inside another"
            }
            Refusal::Samples => {
                "no sample, over 4,096, values not rows × channels long, or scales not one for \
                 each channel"
            }
            Refusal::Times => "times not rising, or one too large",
            Refusal::Values => "a value out of range",
            Refusal::Work => "work shorter than asked for",
            Refusal::StepOrDrift => "step or drift out of range",
            Refusal::Gap => "two neighbouring times differ by more than the step",
            Refusal::Jump => {
                "neighbouring values of a channel differ, times its scale, by more than 2 × drift"
            }
        })
    }
}

impl Error for Refusal {}
