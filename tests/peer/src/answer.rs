//! The program: a sheet in, a printed line out for each of its requirements.

use crate::grammar::read_requirement;
use crate::limits::{PROGRAM_CELLS, PROGRAM_ROWS};
use crate::margin::margin;
use crate::predicate::Predicates;
use crate::recording::{channels_broken, Recording};
use crate::refusal::Refusal;
use crate::rows::{read_rows, Counts};
use crate::sheet::{read_sheet, Sheet};
use crate::table::Table;
use crate::verdict::{verdict, Judgement, Verdict};

/// What a requirement comes to, when nothing is refused.
#[derive(Clone, Debug)]
pub struct Answer {
    pub table: Table,
    pub predicates: Predicates,
    pub recording: Recording,
    pub step: u64,
    pub drift: u64,
    pub counts: Counts,
    pub margin: i64,
    pub judgement: Judgement,
}

/// What one requirement of a sheet comes to.
pub type Entry = Result<Answer, Refusal>;

/// The bytes that the program prints.
pub fn answer(text: &[u8]) -> Vec<u8> {
    printed(&judge_sheet(text))
}

/// "`margin` puts `req=K` (K from 0, in sheet order) and a space before each line; a refusal by 1
/// or 12 prints one bare line. A sheet with one `req=` keeps the old form."
pub fn printed(judged: &Result<Vec<Entry>, Refusal>) -> Vec<u8> {
    let lines: Vec<String> = match judged {
        Err(refusal) => vec![refusal_line(*refusal)],
        Ok(entries) if entries.len() == 1 => vec![entry_line(&entries[0])],
        Ok(entries) => arranged(entries)
            .iter()
            .map(|&k| format!("req={k} {}", entry_line(&entries[k])))
            .collect(),
    };
    lines.concat().into_bytes()
}

/// "Lines come by rising margin, equal margins in sheet order; refused requirements follow, in
/// sheet order." The requirements' numbers, in the order of their lines.
pub fn arranged(entries: &[Entry]) -> Vec<usize> {
    let mut accepted: Vec<(i64, usize)> = Vec::new();
    let mut refused: Vec<usize> = Vec::new();
    for (k, entry) in entries.iter().enumerate() {
        match entry {
            Ok(answer) => accepted.push((answer.margin, k)),
            Err(_) => refused.push(k),
        }
    }
    accepted.sort();
    accepted.into_iter().map(|(_, k)| k).chain(refused).collect()
}

/// The line of a requirement that has the sheet for itself.
pub fn entry_line(entry: &Entry) -> String {
    match entry {
        Err(refusal) => refusal_line(*refusal),
        Ok(answer) => format!(
            "rows={} filled={} margin={} hold={} fail={} verdict={}\n",
            answer.counts.measured,
            answer.counts.filled,
            answer.margin,
            answer.judgement.hold,
            answer.judgement.fail,
            word(answer.judgement.verdict),
        ),
    }
}

fn refusal_line(refusal: Refusal) -> String {
    format!("refused={}\n", refusal.number())
}

fn word(verdict: Verdict) -> &'static str {
    match verdict {
        Verdict::Holds => "holds",
        Verdict::Fails => "fails",
        Verdict::NotShown => "unshown",
    }
}

/// Refusals 1 and 12, of the whole text; else an entry for each requirement, in sheet order.
pub fn judge_sheet(text: &[u8]) -> Result<Vec<Entry>, Refusal> {
    let sheet = read_sheet(text)?;
    let (recording, counts) = recorded(text, &sheet);
    let entry = |places: &std::ops::Range<usize>| {
        judge_requirement(&text[places.clone()], &sheet, &recording, counts)
    };
    Ok(sheet.requirements.iter().map(entry).collect())
}

/// "Each answer equals what that requirement alone would get": 2, then what the verdict refuses.
fn judge_requirement(text: &[u8], sheet: &Sheet, recording: &Recording, counts: Counts) -> Entry {
    let table = read_requirement(text)?;
    let mut work = vec![0; PROGRAM_CELLS];
    // Margin and verdict stand in one line, so the verdict's need of cells decides.
    let judgement =
        verdict(&table, &sheet.predicates, recording, sheet.step, sheet.drift, &mut work)?;
    let margin = margin(&table, &sheet.predicates, recording, &mut work)?;
    Ok(Answer {
        table,
        predicates: sheet.predicates,
        recording: recording.clone(),
        step: sheet.step,
        drift: sheet.drift,
        counts,
        margin,
        judgement,
    })
}

/// The recording of the sheet, of well-written rows. Where the rows are unread (4 follows) or too
/// many (5 follows), it has no sample, which 3 and 4 still precede.
fn recorded(text: &[u8], sheet: &Sheet) -> (Recording, Counts) {
    let channels = sheet.channels;
    let width = if channels_broken(channels) { 0 } else { channels as usize };
    let mut times = vec![0; PROGRAM_ROWS];
    let mut values = vec![0; PROGRAM_ROWS * width];
    let counts = read_rows(&text[sheet.rows_from..], channels, &mut times, &mut values)
        .unwrap_or(Counts { measured: 0, filled: 0 });
    times.truncate(counts.measured);
    values.truncate(counts.measured * width);
    (Recording { channels, scales: sheet.scales.clone(), times, values }, counts)
}
