//! Reads each sheet that is named, prints the library's answer, then takes the parts one by one
//! and prints the same lines made from their figures.
//!
//! `cargo run --example judge -- ../examples/booster-turn-up.sheet`

use std::process::ExitCode;
use std::{env, fs};
use varmityep::{Counts, Judgement, Recording, Refusal, Sheet};

/// What is printed of a requirement that is not refused.
struct Figures {
    margin: i64,
    judgement: Judgement,
}

fn figures(sheet: &Sheet, k: usize, recording: &Recording) -> Result<Figures, Refusal> {
    let table = varmityep::read_requirement(sheet.requirements[k])?;
    let mut work = vec![0; varmityep::ANSWER_CELLS];
    let predicates = &sheet.predicates;
    let judgement =
        varmityep::verdict(&table, predicates, recording, sheet.step, sheet.drift, &mut work)?;
    let margin = varmityep::margin(&table, predicates, recording, &mut work)?;
    Ok(Figures { margin, judgement })
}

fn print_line(counts: Counts, found: &Result<Figures, Refusal>) {
    match found {
        Err(refusal) => println!("refused={}", refusal.number()),
        Ok(Figures { margin, judgement }) => println!(
            "rows={} filled={} margin={margin} hold={} fail={} verdict={}",
            counts.measured, counts.filled, judgement.hold, judgement.fail, judgement.verdict,
        ),
    }
}

fn print_figures(text: &[u8]) -> Result<(), Refusal> {
    let sheet = varmityep::read_sheet(text)?;
    let mut times = vec![0; varmityep::ANSWER_ROWS];
    let mut values = vec![0; 8 * varmityep::ANSWER_ROWS];
    // Rows that are unread or too many leave a recording without a sample: that is 4 or 5 again,
    // and 2, 3 and 13 still go before what they go before.
    let counts = varmityep::read_rows(sheet.rows, sheet.channels, &mut times, &mut values)
        .unwrap_or_default();
    let recording = Recording {
        channels: sheet.channels,
        scales: &sheet.scales,
        times: &times[..counts.measured],
        values: &values[..counts.measured * sheet.channels as usize],
    };

    // The rows are read once, for all requirements.
    let count = sheet.requirements.len();
    let mut found: Vec<_> = (0..count).map(|k| (k, figures(&sheet, k, &recording))).collect();
    // By rising margin, then the refused ones; equal ones keep the sheet's order.
    found.sort_by_key(|(_, found)| found.as_ref().map_or((true, 0), |f| (false, f.margin)));
    for (k, found) in &found {
        if count > 1 {
            print!("req={k} ");
        }
        print_line(counts, found);
    }
    Ok(())
}

fn main() -> ExitCode {
    for file in env::args().skip(1) {
        let text = match fs::read(&file) {
            Ok(text) => text,
            Err(error) => {
                eprintln!("judge: {file}: {error}");
                return ExitCode::FAILURE;
            }
        };
        print!("{}", varmityep::answer(&text));
        // Refused as a whole: by 1 or 12.
        if let Err(refusal) = print_figures(&text) {
            println!("refused={}", refusal.number());
        }
    }
    ExitCode::SUCCESS
}
