//! Rows: `t= src= v0= v1=` and so on.

use crate::fields::{first_line, signed, unsigned, values, Read};
use crate::limits::{MOST_BYTES, MOST_SAMPLES};
use crate::recording::channels_broken;
use crate::refusal::{when, Refusal};

#[derive(Clone, PartialEq, Eq, Debug)]
pub struct Row {
    pub time: u64,
    pub measured: bool,
    pub values: Vec<i64>,
}

#[derive(Clone, Copy, PartialEq, Eq, Debug)]
pub struct Counts {
    pub measured: usize,
    pub filled: usize,
}

const VALUE_KEYS: [&str; 8] = ["v0=", "v1=", "v2=", "v3=", "v4=", "v5=", "v6=", "v7="];

fn parse_row(line: &[u8], channels: u64) -> Read<Row> {
    let mut keys = vec!["t=", "src="];
    keys.extend(&VALUE_KEYS[..channels as usize]);
    let fields = values(line, &keys)?;
    let time = unsigned(fields[0])?;
    let measured = match fields[1] {
        b"m" => true,
        b"f" => false,
        _ => return Err(Refusal::Text),
    };
    let values = fields[2..].iter().map(|field| signed(field)).collect::<Read<_>>()?;
    Ok(Row { time, measured, values })
}

/// Every row of the text, filled ones too, for 1 to 8 channels.
pub fn parse_rows(mut text: &[u8], channels: u64) -> Read<Vec<Row>> {
    let mut rows = Vec::new();
    while !text.is_empty() {
        let (line, rest) = first_line(text)?;
        rows.push(parse_row(line, channels)?);
        text = rest;
    }
    Ok(rows)
}

/// Entry point: refusals 1, 4 and 5, the text being the part of the sheet behind its
/// requirements.
/// "It fills times and values in sheet order; places beyond the measured rows keep their
/// contents."
pub fn read_rows(
    text: &[u8],
    channels: u64,
    times: &mut [u64],
    values: &mut [i64],
) -> Result<Counts, Refusal> {
    when(text.len() > MOST_BYTES, Refusal::Text)?;
    // Rows of no known width are unread.
    when(channels_broken(channels), Refusal::Predicates)?;
    let rows = parse_rows(text, channels)?;
    let measured: Vec<&Row> = rows.iter().filter(|row| row.measured).collect();
    let room = (MOST_SAMPLES as usize).min(times.len()).min(values.len() / channels as usize);
    when(measured.len() > room, Refusal::Samples)?;
    let figures = measured.iter().flat_map(|row| &row.values);
    times.iter_mut().zip(&measured).for_each(|(place, row)| *place = row.time);
    values.iter_mut().zip(figures).for_each(|(place, figure)| *place = *figure);
    Ok(Counts { measured: measured.len(), filled: rows.len() - measured.len() })
}
