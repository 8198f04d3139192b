//! Sheets, requirement text and rows read and answered in plain Rust, by the algorithm of the proved library: what its speed is compared with.

use crate::plain::{self, Card, Node, Predicate, Range, LONGEST, NO_END};
use std::io::Write;

const LONGEST_TEXT: usize = 65_536;
const LARGEST: u64 = 4_294_967_295;
const LARGEST_SIGNED: u64 = 2_147_483_647;
/// What an answer has room for.
const ROWS: usize = 2_048;
const CELLS: usize = 8_192;
/// `req=` lines of a sheet.
const REQUIREMENTS: usize = 16;
/// `t=0 src=m v0=0` and its line feed.
const SHORTEST_ROW: usize = 15;

/// What was read, and the bytes behind it.
type Read<'a, T> = Option<(T, &'a [u8])>;

/// A number of up to ten digits without a leading zero, at most `max`.
fn number(text: &[u8], max: u64) -> Read<'_, u64> {
    let digits = text.iter().take(11).take_while(|b| b.is_ascii_digit()).count();
    if digits == 0 || digits > 10 || digits > 1 && text[0] == b'0' {
        return None;
    }
    let (digits, rest) = text.split_at(digits);
    let value = digits.iter().fold(0, |value, b| value * 10 + u64::from(b - b'0'));
    (value <= max).then_some((value, rest))
}

fn signed(text: &[u8]) -> Read<'_, i64> {
    match text.strip_prefix(b"-") {
        Some(text) => number(text, LARGEST_SIGNED)
            .filter(|&(size, _)| size != 0)
            .map(|(size, rest)| (-(size as i64), rest)),
        None => number(text, LARGEST_SIGNED).map(|(size, rest)| (size as i64, rest)),
    }
}

/// A field of a key and a number.
fn field<'a>(text: &'a [u8], key: &[u8], max: u64) -> Read<'a, u64> {
    number(text.strip_prefix(key)?, max)
}

/// A line of a key and a number.
fn line<'a>(text: &'a [u8], key: &[u8]) -> Read<'a, u64> {
    let (value, rest) = field(text, key, LARGEST)?;
    Some((value, rest.strip_prefix(b"\n")?))
}

/// An end of a range, `*` if it is missing.
fn end<'a>(text: &'a [u8], key: &[u8]) -> Read<'a, Option<i64>> {
    let text = text.strip_prefix(key)?;
    match text.strip_prefix(b"*") {
        Some(rest) => Some((None, rest)),
        None => signed(text).map(|(value, rest)| (Some(value), rest)),
    }
}

/// How many values a row has, and scales a sheet: one for each channel where these are 1 to 8, otherwise none.
fn width(channels: usize) -> usize {
    match channels {
        0..=8 => channels,
        _ => 0,
    }
}

/// The scale of each channel, 0 beyond them.
fn scales(mut text: &[u8], channels: usize) -> Read<'_, [u64; 8]> {
    let mut scales = [0; 8];
    for (channel, scale) in scales[..width(channels)].iter_mut().enumerate() {
        let rest = text.strip_prefix(&[b'c', b'=', b'0' + channel as u8])?;
        (*scale, text) = line(rest, b" scale=")?;
    }
    Some((scales, text))
}

fn predicate(text: &[u8]) -> Read<'_, (usize, Predicate)> {
    let (p, rest) = field(text, b"p=", 15)?;
    let (channel, rest) = field(rest, b" ch=", LARGEST)?;
    let (lo, rest) = end(rest, b" lo=")?;
    let (hi, rest) = end(rest, b" hi=")?;
    let range = match (lo, hi) {
        (None, None) => Range::Free,
        (Some(lo), None) => Range::AtLeast(lo),
        (None, Some(hi)) => Range::AtMost(hi),
        (Some(lo), Some(hi)) => Range::Between(lo, hi),
    };
    Some(((p as usize, Predicate { channel: channel as usize, range }), rest.strip_prefix(b"\n")?))
}

fn predicates(mut text: &[u8]) -> Read<'_, [Predicate; 16]> {
    let mut predicates = [Predicate { channel: 0, range: Range::Unset }; 16];
    let mut least = 0;
    while text.starts_with(b"p=") {
        let ((p, predicate), rest) = predicate(text)?;
        if p < least {
            return None;
        }
        least = p + 1;
        predicates[p] = predicate;
        text = rest;
    }
    Some((predicates, text))
}

/// A row's line: its time, whether it is measured; its values are handed on one by one.
fn row(text: &[u8], channels: usize, mut each: impl FnMut(usize, i64)) -> Read<'_, (u64, bool)> {
    let (time, rest) = field(text, b"t=", LARGEST)?;
    let (&source, mut rest) = rest.strip_prefix(b" src=")?.split_first()?;
    if source != b'm' && source != b'f' {
        return None;
    }
    for channel in 0..channels {
        let (value, after) =
            signed(rest.strip_prefix(&[b' ', b'v', b'0' + channel as u8, b'='])?)?;
        each(channel, value);
        rest = after;
    }
    Some(((time, source == b'm'), rest.strip_prefix(b"\n")?))
}

/// Measured and filled rows of a text that has the form.
fn counted(mut text: &[u8], channels: usize) -> Option<(usize, usize)> {
    let (mut measured, mut filled) = (0, 0);
    while !text.is_empty() {
        let ((_, is_measured), rest) = row(text, channels, |_, _| ())?;
        if is_measured {
            measured += 1
        } else {
            filled += 1
        }
        text = rest;
    }
    Some((measured, filled))
}

/// Measured and filled rows, or the number of what refuses them. Nothing is stored under a refusal.
pub fn rows(
    text: &[u8],
    channels: usize,
    times: &mut [u64],
    values: &mut [i64],
) -> Result<(usize, usize), u64> {
    if text.len() > LONGEST_TEXT {
        return Err(1);
    }
    if !(1..=8).contains(&channels) {
        return Err(4);
    }
    let (measured, filled) = counted(text, channels).ok_or(1u64)?;
    if measured > 4_096 || measured > times.len() || measured * channels > values.len() {
        return Err(5);
    }
    let mut places = times.iter_mut().zip(values.chunks_exact_mut(channels));
    let mut text = text;
    while !text.is_empty() {
        let mut own = [0; 8];
        let ((time, is_measured), rest) = row(text, channels, |c, v| own[c] = v).ok_or(1u64)?;
        if is_measured {
            let (t, v) = places.next().ok_or(5u64)?;
            *t = time;
            v.copy_from_slice(&own[..channels]);
        }
        text = rest;
    }
    Ok((measured, filled))
}

pub struct Sheet<'a> {
    pub channels: usize,
    pub scales: [u64; 8],
    pub step: u64,
    pub drift: u64,
    pub predicates: [Predicate; 16],
    requirements: [&'a [u8]; REQUIREMENTS],
    count: usize,
    pub rows: &'a [u8],
}

impl<'a> Sheet<'a> {
    pub fn requirements(&self) -> &[&'a [u8]] {
        &self.requirements[..self.count]
    }
}

/// The texts of the `req=` lines and their count; those beyond the sixteenth are counted alone.
fn requirements(mut text: &[u8]) -> Read<'_, ([&[u8]; REQUIREMENTS], usize)> {
    let (mut requirements, mut count) = ([&text[..0]; REQUIREMENTS], 0);
    while let Some(rest) = text.strip_prefix(b"req=") {
        let (requirement, rest) = rest.split_at(rest.iter().position(|&b| b == b'\n')?);
        if let Some(place) = requirements.get_mut(count) {
            *place = requirement;
        }
        count += 1;
        text = &rest[1..];
    }
    (count > 0).then_some(((requirements, count), text))
}

fn front(text: &[u8]) -> Option<Sheet<'_>> {
    let (channels, rest) = line(text, b"chan=")?;
    let channels = channels as usize;
    let (scales, rest) = scales(rest, channels)?;
    let (predicates, rest) = predicates(rest)?;
    let (step, rest) = line(rest, b"step=")?;
    let (drift, rest) = line(rest, b"drift=")?;
    let ((requirements, count), rows) = requirements(rest)?;
    Some(Sheet { channels, scales, step, drift, predicates, requirements, count, rows })
}

/// A sheet, or the number of what refuses it: 1 or 12.
pub fn sheet(text: &[u8]) -> Result<Sheet<'_>, u64> {
    if text.len() > LONGEST_TEXT {
        return Err(1);
    }
    let sheet = front(text).ok_or(1u64)?;
    if (1..=8).contains(&sheet.channels) {
        counted(sheet.rows, sheet.channels).ok_or(1u64)?;
    }
    if sheet.count > REQUIREMENTS {
        Err(12)
    } else {
        Ok(sheet)
    }
}

/// A window's numbers in the order of a node's: lo, hi, open_lo, open_hi.
pub type Ends = [u64; 4];

const NO_ENDS: Ends = [0; 4];

/// Nodes while they are read: left, right, parent.
struct Builder {
    nodes: Vec<Node>,
}

impl Builder {
    fn push(
        &mut self,
        kind: u64,
        left: usize,
        right: usize,
        [lo, hi, open_lo, open_hi]: Ends,
    ) -> Option<usize> {
        if self.nodes.len() == 64 {
            return None;
        }
        self.nodes.push(Node { kind, left, right, lo, hi, open_lo, open_hi });
        Some(self.nodes.len() - 1)
    }

    fn unary<'a>(&mut self, text: &'a [u8], depth: usize) -> Read<'a, usize> {
        let (&letter, rest) = text.split_first()?;
        match letter {
            b'T' => Some((self.push(0, 0, 0, NO_ENDS)?, rest)),
            b'p' => {
                let (p, rest) = number(rest, 15)?;
                Some((self.push(1, p as usize, 0, NO_ENDS)?, rest))
            }
            _ if depth == 0 => None,
            b'(' => {
                let (node, rest) = self.alternative(rest, depth - 1)?;
                Some((node, rest.strip_prefix(b")")?))
            }
            b'!' => {
                let (left, rest) = self.unary(rest, depth - 1)?;
                Some((self.push(2, left, 0, NO_ENDS)?, rest))
            }
            b'F' | b'G' => {
                let (ends, rest) = window(rest)?;
                let (left, rest) = self.unary(rest, depth - 1)?;
                Some((self.push(if letter == b'F' { 7 } else { 8 }, left, 0, ends)?, rest))
            }
            _ => None,
        }
    }

    fn bind<'a>(&mut self, text: &'a [u8], depth: usize) -> Read<'a, usize> {
        let (left, rest) = self.unary(text, depth)?;
        let kind = match rest.first() {
            Some(b'U') => 5,
            Some(b'R') => 6,
            _ => return Some((left, rest)),
        };
        let (ends, rest) = window(&rest[1..])?;
        let (right, rest) = self.unary(rest, depth)?;
        Some((self.push(kind, left, right, ends)?, rest))
    }

    fn conjunction<'a>(&mut self, text: &'a [u8], depth: usize) -> Read<'a, usize> {
        let (mut left, mut text) = self.bind(text, depth)?;
        while let Some(rest) = text.strip_prefix(b"&") {
            let (right, rest) = self.bind(rest, depth)?;
            left = self.push(3, left, right, NO_ENDS)?;
            text = rest;
        }
        Some((left, text))
    }

    fn alternative<'a>(&mut self, text: &'a [u8], depth: usize) -> Read<'a, usize> {
        let (mut left, mut text) = self.conjunction(text, depth)?;
        while let Some(rest) = text.strip_prefix(b"|") {
            let (right, rest) = self.conjunction(rest, depth)?;
            left = self.push(4, left, right, NO_ENDS)?;
            text = rest;
        }
        Some((left, text))
    }
}

/// The bracket at an end of a window as its mark: 1 where the end is excluded.
fn bracket(text: &[u8], counted: u8, excluded: u8) -> Read<'_, u64> {
    let (&byte, rest) = text.split_first()?;
    (byte == counted || byte == excluded).then_some((u64::from(byte == excluded), rest))
}

/// What follows a window's comma: its high end and that end's mark.
fn upper(text: &[u8]) -> Read<'_, (u64, u64)> {
    if let Some(rest) = text.strip_prefix(b"*]") {
        return Some(((NO_END, 0), rest));
    }
    let (hi, rest) = number(text, LONGEST)?;
    let (open_hi, rest) = bracket(rest, b']', b')')?;
    Some(((hi, open_hi), rest))
}

/// The window that a text begins with. Something must be left of it.
pub fn window(text: &[u8]) -> Read<'_, Ends> {
    let (open_lo, rest) = bracket(text, b'[', b'(')?;
    let (lo, rest) = number(rest, LONGEST)?;
    let ((hi, open_hi), rest) = upper(rest.strip_prefix(b",")?)?;
    (lo + open_lo + open_hi <= hi).then_some(([lo, hi, open_lo, open_hi], rest))
}

pub fn requirement(text: &[u8]) -> Option<Vec<Node>> {
    let mut builder = Builder { nodes: Vec::with_capacity(64) };
    let (_, rest) = builder.alternative(text, 32)?;
    rest.is_empty().then_some(builder.nodes)
}

/// The number of what the verdict refuses, its tests in order. Asked only where there is one.
#[cold]
fn refusal(nodes: &[Node], card: &Card, step: u64, drift: u64) -> u64 {
    let set = |n: &Node| n.kind != 1 || !matches!(card.predicates[n.left].range, Range::Unset);
    let fits = |v: i64| v.unsigned_abs() <= 1_000_000_000;
    let kept = |p: &Predicate| match p.range {
        Range::Unset => true,
        Range::Free => p.channel < card.channels,
        Range::AtLeast(e) | Range::AtMost(e) => p.channel < card.channels && fits(e),
        Range::Between(lo, hi) => p.channel < card.channels && fits(lo) && fits(hi) && lo <= hi,
    };
    let tests = [
        (3, nodes.iter().all(set)),
        (4, (1..=8).contains(&card.channels) && card.predicates.iter().all(kept)),
        (13, card.scales.iter().all(|scale| (1..=1_000).contains(scale))),
        (5, !card.times.is_empty()),
        (
            6,
            card.times.windows(2).all(|t| t[0] < t[1])
                && card.times.iter().all(|&t| t <= 2_000_000_000),
        ),
        (7, card.values.iter().all(|&v| fits(v))),
        (8, 2 * nodes.len() * card.times.len() <= CELLS),
        (9, (1..=1_000_000_000).contains(&step) && drift <= 1_000_000_000),
        (10, card.times.windows(2).all(|t| t[1].abs_diff(t[0]) <= step)),
    ];
    tests.iter().find(|(_, holds)| !holds).map_or(11, |&(number, _)| number)
}

/// What is printed of a requirement that is not refused.
#[derive(Clone, Copy)]
struct Figures {
    margin: i64,
    hold: i64,
    fail: i64,
}

/// The figures of a requirement, or the number of what refuses it.
fn figures(text: &[u8], sheet: &Sheet, card: &Card, work: &mut Vec<i64>) -> Result<Figures, u64> {
    let nodes = requirement(text).ok_or(2u64)?;
    let cells = CELLS.min(2 * nodes.len() * card.times.len());
    if work.len() < cells {
        work.resize(cells, 0);
    }
    let judged = plain::verdict(&nodes, card, sheet.step, sheet.drift, work);
    let Some((hold, fail)) = judged else {
        return Err(refusal(&nodes, card, sheet.step, sheet.drift));
    };
    let margin = plain::margin(&nodes, card, work).ok_or(8u64)?;
    Ok(Figures { margin, hold, fail })
}

fn print(
    lines: &mut Vec<u8>,
    found: Result<Figures, u64>,
    (measured, filled): (usize, usize),
    drift: i64,
) {
    match found {
        Err(number) => writeln!(lines, "refused={number}"),
        Ok(Figures { margin, hold, fail }) => {
            let verdict = if hold > drift { "holds" } else if fail > drift { "fails" } else { "unshown" };
            writeln!(lines, "rows={measured} filled={filled} margin={margin} hold={hold} fail={fail} verdict={verdict}")
        }
    }
    .expect("a Vec takes every byte");
}

/// The lines of a sheet's requirements. The rows are read once for all of them.
fn answer_each(sheet: &Sheet, lines: &mut Vec<u8>) {
    let room = ROWS.min(sheet.rows.len() / SHORTEST_ROW);
    let width = width(sheet.channels);
    let (mut times, mut values) = (vec![0; room], vec![0; room * width]);
    // rows that are unread or too many leave a recording without a sample
    let counts = rows(sheet.rows, sheet.channels, &mut times, &mut values).unwrap_or_default();
    let card = Card {
        predicates: &sheet.predicates,
        channels: sheet.channels,
        scales: &sheet.scales[..width],
        times: &times[..counts.0],
        values: &values[..counts.0 * width],
    };
    let mut work = Vec::new();
    let mut found = [(0, Err(0)); REQUIREMENTS];
    let found = &mut found[..sheet.count];
    for (k, text) in sheet.requirements().iter().enumerate() {
        found[k] = (k, figures(text, sheet, &card, &mut work));
    }
    // by rising margin, then the refused ones; equal ones keep the sheet's order
    found.sort_by_key(|(_, found)| found.map_or((true, 0), |f| (false, f.margin)));
    for &(k, one) in found.iter() {
        if sheet.count > 1 {
            write!(lines, "req={k} ").expect("a Vec takes every byte");
        }
        print(lines, one, counts, sheet.drift as i64);
    }
}

/// The lines that are printed for a sheet.
pub fn answer(text: &[u8], lines: &mut Vec<u8>) {
    lines.clear();
    match sheet(text) {
        Ok(sheet) => answer_each(&sheet, lines),
        Err(number) => print(lines, Err(number), (0, 0), 0),
    }
}
