//! The library's C names, as functions on slices. Nothing checks these declarations against the
//! library's source, so they are few, flat, and stand in this file alone, with all `unsafe`.
//! `include/varmityep.h` says what each place holds.

extern "C" {
    fn varmityep_answer(
        text: *const u8,
        text_len: usize,
        lines: *mut u8,
        lines_len: usize,
    ) -> usize;

    fn varmityep_sheet(
        text: *const u8,
        text_len: usize,
        numbers: *mut u64,
        numbers_len: usize,
        places: *mut u64,
        places_len: usize,
        scales: *mut u64,
        scales_len: usize,
        ranges: *mut u64,
        ranges_len: usize,
        ends: *mut i64,
        ends_len: usize,
    ) -> u64;

    fn varmityep_requirement(
        text: *const u8,
        text_len: usize,
        nodes: *mut u64,
        nodes_len: usize,
        count: *mut u64,
        count_len: usize,
    ) -> u64;

    fn varmityep_write(
        nodes: *const u64,
        nodes_len: usize,
        count: u64,
        text: *mut u8,
        text_len: usize,
    ) -> Written;

    fn varmityep_rows(
        text: *const u8,
        text_len: usize,
        channels: u64,
        times: *mut u64,
        times_len: usize,
        values: *mut i64,
        values_len: usize,
        counts: *mut u64,
        counts_len: usize,
    ) -> u64;

    fn varmityep_distance(
        range: u64,
        channel: u64,
        lo: i64,
        hi: i64,
        scale: u64,
        value: i64,
        result: *mut i64,
        result_len: usize,
    ) -> u64;

    fn varmityep_margin(
        nodes: *const u64,
        nodes_len: usize,
        count: u64,
        ranges: *const u64,
        ranges_len: usize,
        ends: *const i64,
        ends_len: usize,
        channels: u64,
        scales: *const u64,
        scales_len: usize,
        times: *const u64,
        times_len: usize,
        values: *const i64,
        values_len: usize,
        work: *mut i64,
        work_len: usize,
        result: *mut i64,
        result_len: usize,
    ) -> u64;

    fn varmityep_verdict(
        nodes: *const u64,
        nodes_len: usize,
        count: u64,
        ranges: *const u64,
        ranges_len: usize,
        ends: *const i64,
        ends_len: usize,
        channels: u64,
        scales: *const u64,
        scales_len: usize,
        times: *const u64,
        times_len: usize,
        values: *const i64,
        values_len: usize,
        step: u64,
        drift: u64,
        work: *mut i64,
        work_len: usize,
        result: *mut i64,
        result_len: usize,
    ) -> u64;

    fn varmityep_watch_fresh(
        nodes: *const u64,
        nodes_len: usize,
        count: u64,
        ranges: *const u64,
        ranges_len: usize,
        ends: *const i64,
        ends_len: usize,
        scales: *const u64,
        scales_len: usize,
        numbers: *mut u64,
        numbers_len: usize,
        cells: *mut i64,
        cells_len: usize,
    ) -> u64;

    fn varmityep_watch_row(
        numbers: *mut u64,
        numbers_len: usize,
        cells: *mut i64,
        cells_len: usize,
        time: u64,
        values: *const i64,
        values_len: usize,
    ) -> u64;

    fn varmityep_watch_margin(
        numbers: *const u64,
        numbers_len: usize,
        cells: *const i64,
        cells_len: usize,
        result: *mut i64,
        result_len: usize,
    ) -> u64;
}

pub const MOST_NODES: usize = 64;
pub const PREDICATES: usize = 16;
pub const MOST_CHANNELS: usize = 8;
pub const MOST_REQUIREMENTS: usize = 16;
/// Of a node: kind, left, right, lo, hi, and whether each end is excluded.
pub const NODE_NUMBERS: usize = 7;

/// Lengths that lose nothing, in elements.
pub const NODES: usize = MOST_NODES * NODE_NUMBERS;
pub const RANGES: usize = 2 * PREDICATES;
pub const ENDS: usize = 2 * PREDICATES;
pub const NUMBERS: usize = 5;
pub const PLACES: usize = 2 * MOST_REQUIREMENTS;
pub const SCALES: usize = MOST_CHANNELS;
pub const COUNTS: usize = 2;
pub const RESULT: usize = 3;
/// No answer is longer, in bytes.
pub const LINES: usize = 2_688;
/// No node needs more of a requirement's text, and no text is longer, in bytes.
const NODE_BYTES: usize = 26;
pub const REQUIREMENT_BYTES: usize = MOST_NODES * NODE_BYTES;
/// What a watch stands in. Numbers: five of its own, its scales, its predicates' and its nodes'. Cells:
/// its predicates' ends, and three for each node.
pub const WATCH_NUMBERS: usize = 5 + SCALES + RANGES + NODES;
pub const WATCH_CELLS: usize = ENDS + 3 * MOST_NODES;

/// What a requirement's writing hands back: the refusal, 0 for none, and the length of the text.
#[repr(C)]
#[derive(Clone, Copy, PartialEq, Eq, Debug)]
pub struct Written {
    pub number: u64,
    pub length: usize,
}

/// The length of the printed lines together.
pub fn answer(text: &[u8], lines: &mut [u8]) -> usize {
    // SAFETY: the library asks nothing of its caller but slices that are live, of the lengths
    // given and apart from each other. References are; so in every call below.
    unsafe { varmityep_answer(text.as_ptr(), text.len(), lines.as_mut_ptr(), lines.len()) }
}

/// What a sheet is read into.
pub struct Sheet<'a> {
    pub numbers: &'a mut [u64],
    pub places: &'a mut [u64],
    pub scales: &'a mut [u64],
    pub ranges: &'a mut [u64],
    pub ends: &'a mut [i64],
}

pub fn sheet(text: &[u8], sheet: Sheet) -> u64 {
    unsafe {
        varmityep_sheet(
            text.as_ptr(),
            text.len(),
            sheet.numbers.as_mut_ptr(),
            sheet.numbers.len(),
            sheet.places.as_mut_ptr(),
            sheet.places.len(),
            sheet.scales.as_mut_ptr(),
            sheet.scales.len(),
            sheet.ranges.as_mut_ptr(),
            sheet.ranges.len(),
            sheet.ends.as_mut_ptr(),
            sheet.ends.len(),
        )
    }
}

pub fn requirement(text: &[u8], nodes: &mut [u64], count: &mut [u64]) -> u64 {
    unsafe {
        varmityep_requirement(
            text.as_ptr(),
            text.len(),
            nodes.as_mut_ptr(),
            nodes.len(),
            count.as_mut_ptr(),
            count.len(),
        )
    }
}

pub fn write(nodes: &[u64], count: u64, text: &mut [u8]) -> Written {
    let (place, length) = (text.as_mut_ptr(), text.len());
    unsafe { varmityep_write(nodes.as_ptr(), nodes.len(), count, place, length) }
}

pub fn rows(
    text: &[u8],
    channels: u64,
    times: &mut [u64],
    values: &mut [i64],
    counts: &mut [u64],
) -> u64 {
    unsafe {
        varmityep_rows(
            text.as_ptr(),
            text.len(),
            channels,
            times.as_mut_ptr(),
            times.len(),
            values.as_mut_ptr(),
            values.len(),
            counts.as_mut_ptr(),
            counts.len(),
        )
    }
}

/// The predicate as its range, channel, lo and hi.
pub fn distance(
    (range, channel, lo, hi): (u64, u64, i64, i64),
    scale: u64,
    value: i64,
    result: &mut [i64],
) -> u64 {
    let (place, length) = (result.as_mut_ptr(), result.len());
    unsafe { varmityep_distance(range, channel, lo, hi, scale, value, place, length) }
}

/// What margin and verdict are given besides work.
pub struct Call<'a> {
    pub nodes: &'a [u64],
    pub count: u64,
    pub ranges: &'a [u64],
    pub ends: &'a [i64],
    pub channels: u64,
    pub scales: &'a [u64],
    pub times: &'a [u64],
    pub values: &'a [i64],
}

/// Margin and verdict take the same call; the verdict takes its step and drift, too.
macro_rules! ask {
    ($name:ident, $call:expr, [$($number:expr),*], $work:expr, $result:expr) => {
        unsafe {
            $name(
                $call.nodes.as_ptr(),
                $call.nodes.len(),
                $call.count,
                $call.ranges.as_ptr(),
                $call.ranges.len(),
                $call.ends.as_ptr(),
                $call.ends.len(),
                $call.channels,
                $call.scales.as_ptr(),
                $call.scales.len(),
                $call.times.as_ptr(),
                $call.times.len(),
                $call.values.as_ptr(),
                $call.values.len(),
                $($number,)*
                $work.as_mut_ptr(),
                $work.len(),
                $result.as_mut_ptr(),
                $result.len(),
            )
        }
    };
}

pub fn margin(call: &Call, work: &mut [i64], result: &mut [i64]) -> u64 {
    ask!(varmityep_margin, call, [], work, result)
}

pub fn verdict(call: &Call, step: u64, drift: u64, work: &mut [i64], result: &mut [i64]) -> u64 {
    ask!(varmityep_verdict, call, [step, drift], work, result)
}

/// What a watch is made of: one scale for each channel.
pub struct Making<'a> {
    pub nodes: &'a [u64],
    pub count: u64,
    pub ranges: &'a [u64],
    pub ends: &'a [i64],
    pub scales: &'a [u64],
}

pub fn watch_fresh(making: &Making, numbers: &mut [u64], cells: &mut [i64]) -> u64 {
    unsafe {
        varmityep_watch_fresh(
            making.nodes.as_ptr(),
            making.nodes.len(),
            making.count,
            making.ranges.as_ptr(),
            making.ranges.len(),
            making.ends.as_ptr(),
            making.ends.len(),
            making.scales.as_ptr(),
            making.scales.len(),
            numbers.as_mut_ptr(),
            numbers.len(),
            cells.as_mut_ptr(),
            cells.len(),
        )
    }
}

pub fn watch_row(numbers: &mut [u64], cells: &mut [i64], time: u64, values: &[i64]) -> u64 {
    unsafe {
        varmityep_watch_row(
            numbers.as_mut_ptr(),
            numbers.len(),
            cells.as_mut_ptr(),
            cells.len(),
            time,
            values.as_ptr(),
            values.len(),
        )
    }
}

pub fn watch_margin(numbers: &[u64], cells: &[i64], result: &mut [i64]) -> u64 {
    unsafe {
        varmityep_watch_margin(
            numbers.as_ptr(),
            numbers.len(),
            cells.as_ptr(),
            cells.len(),
            result.as_mut_ptr(),
            result.len(),
        )
    }
}
