//! Hold, fail and the verdict.

use crate::limits::{LARGEST_DRIFT, LARGEST_STEP};
use crate::margin::{judge, write, Margins, Row};
use crate::predicate::Predicates;
use crate::recording::Recording;
use crate::refusal::{when, Refusal};
use crate::strengthen::Strengthening;
use crate::table::Table;

#[derive(Clone, Copy, PartialEq, Eq, Debug)]
pub enum Verdict {
    Holds,
    Fails,
    NotShown,
}

#[derive(Clone, Copy, PartialEq, Eq, Debug)]
pub struct Judgement {
    pub verdict: Verdict,
    pub hold: i64,
    pub fail: i64,
}

/// "The verdict is 'holds' if hold > drift, else 'fails' if fail > drift, else 'not shown'."
fn verdict_of(hold: i64, fail: i64, drift: u64) -> Verdict {
    let drift = drift as i64;
    if hold > drift {
        Verdict::Holds
    } else if fail > drift {
        Verdict::Fails
    } else {
        Verdict::NotShown
    }
}

/// Entry point: refusals 3 to 11 and 13. "Row 2k has node k's strengthened margins, row 2k + 1
/// those of its negation."
pub fn verdict(
    table: &Table,
    predicates: &Predicates,
    recording: &Recording,
    step: u64,
    drift: u64,
    work: &mut [i64],
) -> Result<Judgement, Refusal> {
    judge(table, predicates, recording)?;
    when(work.len() < 2 * table.count() * recording.rows(), Refusal::Work)?;
    when(!(1..=LARGEST_STEP).contains(&step) || drift > LARGEST_DRIFT, Refusal::StepOrDrift)?;
    when(recording.has_gap(step), Refusal::Gap)?;
    when(recording.has_jump(drift), Refusal::Jump)?;
    let rows = strengthened_rows(table, predicates, recording, step);
    write(work, &rows);
    let root = table.count() - 1;
    let (hold, fail) = (rows[2 * root][0], rows[2 * root + 1][0]);
    Ok(Judgement { verdict: verdict_of(hold, fail, drift), hold, fail })
}

fn strengthened_rows(
    table: &Table,
    predicates: &Predicates,
    recording: &Recording,
    step: u64,
) -> Vec<Row> {
    let mut strengthening = Strengthening::by(step);
    let mut margins = Margins::over(predicates, recording);
    let mut rows = Vec::new();
    for tree in table.trees() {
        for negated in [false, true] {
            rows.push(margins.of(&strengthening.strengthened(&tree, negated)));
        }
    }
    rows
}
