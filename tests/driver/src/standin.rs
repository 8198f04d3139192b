//! The peer behind the proved library's C names: so that the declarations and the flat numbers
//! are tried where no proved library is at hand.

use crate::flat::Peer;
use crate::library::Library;
use crate::names::{Call, Making, Sheet, Written};
use std::slice::{from_raw_parts, from_raw_parts_mut};

#[no_mangle]
unsafe extern "C" fn varmityep_answer(
    text: *const u8,
    text_len: usize,
    lines: *mut u8,
    lines_len: usize,
) -> usize {
    Peer.answer(from_raw_parts(text, text_len), from_raw_parts_mut(lines, lines_len))
}

#[no_mangle]
unsafe extern "C" fn varmityep_sheet(
    text: *const u8,
    text_len: usize,
    numbers: *mut u64,
    numbers_len: usize,
    places: *mut u64,
    places_len: usize,
    scales: *mut u64,
    scales_len: usize,
    ranges: *mut u64,
    ranges_len: usize,
    ends: *mut i64,
    ends_len: usize,
) -> u64 {
    let sheet = Sheet {
        numbers: from_raw_parts_mut(numbers, numbers_len),
        places: from_raw_parts_mut(places, places_len),
        scales: from_raw_parts_mut(scales, scales_len),
        ranges: from_raw_parts_mut(ranges, ranges_len),
        ends: from_raw_parts_mut(ends, ends_len),
    };
    Peer.sheet(from_raw_parts(text, text_len), sheet)
}

#[no_mangle]
unsafe extern "C" fn varmityep_requirement(
    text: *const u8,
    text_len: usize,
    nodes: *mut u64,
    nodes_len: usize,
    count: *mut u64,
    count_len: usize,
) -> u64 {
    let nodes = from_raw_parts_mut(nodes, nodes_len);
    let count = from_raw_parts_mut(count, count_len);
    Peer.requirement(from_raw_parts(text, text_len), nodes, count)
}

#[no_mangle]
unsafe extern "C" fn varmityep_write(
    nodes: *const u64,
    nodes_len: usize,
    count: u64,
    text: *mut u8,
    text_len: usize,
) -> Written {
    Peer.write(from_raw_parts(nodes, nodes_len), count, from_raw_parts_mut(text, text_len))
}

#[no_mangle]
unsafe extern "C" fn varmityep_rows(
    text: *const u8,
    text_len: usize,
    channels: u64,
    times: *mut u64,
    times_len: usize,
    values: *mut i64,
    values_len: usize,
    counts: *mut u64,
    counts_len: usize,
) -> u64 {
    let times = from_raw_parts_mut(times, times_len);
    let values = from_raw_parts_mut(values, values_len);
    let counts = from_raw_parts_mut(counts, counts_len);
    Peer.rows(from_raw_parts(text, text_len), channels, times, values, counts)
}

#[no_mangle]
unsafe extern "C" fn varmityep_distance(
    range: u64,
    channel: u64,
    lo: i64,
    hi: i64,
    scale: u64,
    value: i64,
    result: *mut i64,
    result_len: usize,
) -> u64 {
    Peer.distance((range, channel, lo, hi), scale, value, from_raw_parts_mut(result, result_len))
}

/// Margin and verdict are handed the same; the verdict its step and drift, too.
macro_rules! judging {
    ($name:ident, [$($number:ident),*], $ask:ident) => {
        #[no_mangle]
        unsafe extern "C" fn $name(
            nodes: *const u64,
            nodes_len: usize,
            count: u64,
            ranges: *const u64,
            ranges_len: usize,
            ends: *const i64,
            ends_len: usize,
            channels: u64,
            scales: *const u64,
            scales_len: usize,
            times: *const u64,
            times_len: usize,
            values: *const i64,
            values_len: usize,
            $($number: u64,)*
            work: *mut i64,
            work_len: usize,
            result: *mut i64,
            result_len: usize,
        ) -> u64 {
            let call = Call {
                nodes: from_raw_parts(nodes, nodes_len),
                count,
                ranges: from_raw_parts(ranges, ranges_len),
                ends: from_raw_parts(ends, ends_len),
                channels,
                scales: from_raw_parts(scales, scales_len),
                times: from_raw_parts(times, times_len),
                values: from_raw_parts(values, values_len),
            };
            let work = from_raw_parts_mut(work, work_len);
            Peer.$ask(&call, $($number,)* work, from_raw_parts_mut(result, result_len))
        }
    };
}

judging!(varmityep_margin, [], margin);
judging!(varmityep_verdict, [step, drift], verdict);

#[no_mangle]
unsafe extern "C" fn varmityep_watch_fresh(
    nodes: *const u64,
    nodes_len: usize,
    count: u64,
    ranges: *const u64,
    ranges_len: usize,
    ends: *const i64,
    ends_len: usize,
    scales: *const u64,
    scales_len: usize,
    numbers: *mut u64,
    numbers_len: usize,
    cells: *mut i64,
    cells_len: usize,
) -> u64 {
    let making = Making {
        nodes: from_raw_parts(nodes, nodes_len),
        count,
        ranges: from_raw_parts(ranges, ranges_len),
        ends: from_raw_parts(ends, ends_len),
        scales: from_raw_parts(scales, scales_len),
    };
    let numbers = from_raw_parts_mut(numbers, numbers_len);
    Peer.watch_fresh(&making, numbers, from_raw_parts_mut(cells, cells_len))
}

#[no_mangle]
unsafe extern "C" fn varmityep_watch_row(
    numbers: *mut u64,
    numbers_len: usize,
    cells: *mut i64,
    cells_len: usize,
    time: u64,
    values: *const i64,
    values_len: usize,
) -> u64 {
    let numbers = from_raw_parts_mut(numbers, numbers_len);
    let cells = from_raw_parts_mut(cells, cells_len);
    Peer.watch_row(numbers, cells, time, from_raw_parts(values, values_len))
}

#[no_mangle]
unsafe extern "C" fn varmityep_watch_margin(
    numbers: *const u64,
    numbers_len: usize,
    cells: *const i64,
    cells_len: usize,
    result: *mut i64,
    result_len: usize,
) -> u64 {
    let numbers = from_raw_parts(numbers, numbers_len);
    let cells = from_raw_parts(cells, cells_len);
    Peer.watch_margin(numbers, cells, from_raw_parts_mut(result, result_len))
}

#[test]
fn the_peer_behind_the_c_names_agrees_with_itself() {
    use crate::compare::Others;
    use crate::families::{limit_sheets, Bench, FAMILIES};
    use crate::proved::Proved;
    use crate::tally::Tally;
    use peer::generate::prng::{case_seed, Prng};

    let others = Others { library: Some(Box::new(Proved)), program: None };
    let mut tally = Tally::default();
    let mut bench = Bench { others: &others, tally: &mut tally, ask_program: false };
    assert!(limit_sheets(&mut bench).is_ok());
    for family in &FAMILIES {
        for case in 0..300 {
            let run = (family.run)(&mut bench, &mut Prng::new(case_seed(7, case)));
            assert!(run.is_ok(), "{} {}", family.name, run.err().map_or(String::new(), |f| f.what));
        }
    }
}
