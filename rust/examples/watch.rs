//! Reads a sheet from standard input, its rows one by one as they come, and prints the margin behind
//! each measured row. A row that is refused is as if it had not come.
//!
//! `cargo run --example watch < ../examples/c/watch.sheet`

use std::io::{self, BufRead, Write};
use varmityep::{Refusal, Sheet, Watch};

/// A watch, and what stands before its lines: `req=K ` where the sheet has several requirements.
struct Watched {
    mark: String,
    watch: Watch,
}

/// All that stands before the first row, and the line of that row.
fn read_head(input: &mut impl BufRead) -> io::Result<(Vec<u8>, Vec<u8>)> {
    let mut head = Vec::new();
    loop {
        let mut line = Vec::new();
        if input.read_until(b'\n', &mut line)? == 0 || line.starts_with(b"t=") {
            return Ok((head, line));
        }
        head.extend(line);
    }
}

fn watch(sheet: &Sheet, k: usize) -> Result<Watch, Refusal> {
    let table = varmityep::read_requirement(sheet.requirements[k])?;
    let watch = Watch::fresh(&table, &sheet.predicates, &sheet.scales);
    watch.refusal().map_or(Ok(watch), Err)
}

/// A watch for each requirement that can be watched; of the others, what refuses them is printed.
fn watches(sheet: &Sheet, output: &mut impl Write) -> io::Result<Vec<Watched>> {
    let mut watches = Vec::new();
    let count = sheet.requirements.len();
    for k in 0..count {
        let mark = if count > 1 { format!("req={k} ") } else { String::new() };
        match watch(sheet, k) {
            Ok(watch) => watches.push(Watched { mark, watch }),
            Err(refusal) => writeln!(output, "{mark}refused={}", refusal.number())?,
        }
    }
    Ok(watches)
}

/// Offers a row's line to every watch. A filled row is checked as text, and otherwise skipped.
fn take(
    line: &[u8],
    channels: u64,
    watches: &mut [Watched],
    output: &mut impl Write,
) -> io::Result<()> {
    let (mut times, mut values) = ([0], vec![0; channels as usize]);
    let measured = match varmityep::read_rows(line, channels, &mut times, &mut values) {
        Ok(counts) => counts.measured,
        Err(refusal) => return writeln!(output, "refused={}", refusal.number()),
    };
    for Watched { mark, watch } in watches.iter_mut().filter(|_| measured > 0) {
        let found = watch.row(times[0], &values).and_then(|()| watch.margin());
        let said = match found {
            Ok(margin) => format!("margin={margin}"),
            Err(refusal) => format!("refused={}", refusal.number()),
        };
        writeln!(output, "{mark}t={} {said}", times[0])?;
    }
    Ok(())
}

fn main() -> io::Result<()> {
    let (mut input, mut output) = (io::stdin().lock(), io::stdout().lock());
    let (head, mut line) = read_head(&mut input)?;
    let sheet = match varmityep::read_sheet(&head) {
        Ok(sheet) => sheet,
        Err(refusal) => return writeln!(output, "refused={}", refusal.number()),
    };
    // Where channels are not 1 to 8, nothing is watched, and no row is read.
    let mut watches = watches(&sheet, &mut output)?;
    while !line.is_empty() && !watches.is_empty() {
        take(&line, sheet.channels, &mut watches, &mut output)?;
        output.flush()?;
        line.clear();
        input.read_until(b'\n', &mut line)?;
    }
    output.flush()
}
