//! A sheet before it is text.

use crate::rows::Row;

#[derive(Clone, Debug)]
pub struct PredicateLine {
    pub number: u64,
    pub channel: u64,
    pub lo: Option<i64>,
    pub hi: Option<i64>,
}

#[derive(Clone, Debug)]
pub struct Draft {
    pub channels: u64,
    /// One for each channel; none where channels isn't 1 to 8.
    pub scales: Vec<u64>,
    pub predicates: Vec<PredicateLine>,
    pub step: u64,
    pub drift: u64,
    pub requirements: Vec<Vec<u8>>,
    pub rows: Vec<Row>,
}

impl Draft {
    pub fn lines(&self) -> Vec<Vec<u8>> {
        let mut lines = vec![format!("chan={}", self.channels).into_bytes()];
        lines.extend(self.scales.iter().enumerate().map(|(c, &scale)| scale_line(c, scale)));
        lines.extend(self.predicates.iter().map(predicate_line));
        lines.push(format!("step={}", self.step).into_bytes());
        lines.push(format!("drift={}", self.drift).into_bytes());
        lines.extend(self.requirements.iter().map(|text| requirement_line(text)));
        lines.extend(self.rows.iter().map(row_line));
        lines
    }

    pub fn text(&self) -> Vec<u8> {
        joined(&self.lines())
    }

    /// How many lines stand before the first `req=` line.
    pub fn lines_before_requirements(&self) -> usize {
        self.scales.len() + self.predicates.len() + 3
    }

    /// How many lines stand before the rows.
    pub fn lines_before_rows(&self) -> usize {
        self.lines_before_requirements() + self.requirements.len()
    }

    /// Another count of channels, not 1 to 8: no `c=` line is due.
    pub fn break_channels(&mut self, channels: u64) {
        self.channels = channels;
        self.scales.clear();
    }

    /// The places of the measured rows.
    pub fn measured(&self) -> Vec<usize> {
        (0..self.rows.len()).filter(|&row| self.rows[row].measured).collect()
    }

    /// One predicate more, where its number has its place.
    pub fn set(&mut self, line: PredicateLine) {
        let before = self.predicates.iter().filter(|other| other.number < line.number).count();
        self.predicates.insert(before, line);
    }

    pub fn is_set(&self, number: u64) -> bool {
        self.predicates.iter().any(|predicate| predicate.number == number)
    }
}

/// Lines with a line feed behind each.
pub fn joined(lines: &[Vec<u8>]) -> Vec<u8> {
    lines.iter().flat_map(|line| line.iter().copied().chain([b'\n'])).collect()
}

pub fn requirement_line(text: &[u8]) -> Vec<u8> {
    [b"req=", text].concat()
}

pub fn scale_line(channel: usize, scale: u64) -> Vec<u8> {
    format!("c={channel} scale={scale}").into_bytes()
}

fn predicate_line(predicate: &PredicateLine) -> Vec<u8> {
    let end = |end: Option<i64>| end.map_or("*".to_string(), |end| end.to_string());
    format!(
        "p={} ch={} lo={} hi={}",
        predicate.number,
        predicate.channel,
        end(predicate.lo),
        end(predicate.hi)
    )
    .into_bytes()
}

fn row_line(row: &Row) -> Vec<u8> {
    let mut line = format!("t={} src={}", row.time, if row.measured { 'm' } else { 'f' });
    for (channel, value) in row.values.iter().enumerate() {
        line.push_str(&format!(" v{channel}={value}"));
    }
    line.into_bytes()
}
