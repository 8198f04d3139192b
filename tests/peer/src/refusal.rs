//! "What is handed back on refusal": the numbers, by their meaning.

#[derive(Clone, Copy, PartialEq, Eq, Debug)]
pub enum Refusal {
    Text,
    TooManyRequirements,
    Requirement,
    Table,
    TooLarge,
    Room,
    Predicates,
    Scales,
    Nested,
    Samples,
    Times,
    Values,
    Work,
    StepOrDrift,
    Gap,
    Jump,
}

impl Refusal {
    pub fn number(self) -> u64 {
        match self {
            Refusal::Text => 1,
            Refusal::TooManyRequirements => 12,
            Refusal::Requirement => 2,
            Refusal::Table => 3,
            Refusal::TooLarge => 14,
            Refusal::Room => 15,
            Refusal::Predicates => 4,
            Refusal::Scales => 13,
            Refusal::Nested => 16,
            Refusal::Samples => 5,
            Refusal::Times => 6,
            Refusal::Values => 7,
            Refusal::Work => 8,
            Refusal::StepOrDrift => 9,
            Refusal::Gap => 10,
            Refusal::Jump => 11,
        }
    }
}

/// The numbers in the order in which they count, which is not that of their size.
pub const ORDER: [u64; 16] = [1, 12, 2, 3, 14, 15, 4, 13, 16, 5, 6, 7, 8, 9, 10, 11];

/// Those of them that a sheet may be refused by: 14 and 15 are for tables that are written out, 16 for
/// tables that are watched.
pub fn of_a_sheet() -> Vec<u64> {
    ORDER.into_iter().filter(|number| ![14, 15, 16].contains(number)).collect()
}

/// The one of these numbers that counts first, 0 where there is none.
pub fn first_of(numbers: &[u64]) -> u64 {
    ORDER.into_iter().find(|number| numbers.contains(number)).unwrap_or(0)
}

/// These numbers, each once, the one that counts first at the end.
pub fn last_to_first(numbers: &[u64]) -> Vec<u64> {
    ORDER.into_iter().rev().filter(|number| numbers.contains(number)).collect()
}

/// Refuses when the condition holds. Conditions are written down in the order in which they win.
pub fn when(condition: bool, refusal: Refusal) -> Result<(), Refusal> {
    if condition {
        Err(refusal)
    } else {
        Ok(())
    }
}
