//! One input put to each implementation at hand, and the answers compared.

use crate::flat::{flat_nodes, flat_predicates, Peer};
use crate::library::{Library, COUNTS, ENDS, NODES, NUMBERS, PLACES, RANGES, RESULT, SCALES};
use crate::names::{self, Written, LINES};
use crate::play::{left_by, play, unlike, Plan, State, Step};
use crate::program::Program;
use peer::generate::calls::Call;
use peer::generate::watches::{Offer, Watching};
use peer::limits::MOST_SCALE;
use peer::predicate::Predicates;
use peer::table::Table;
use std::fmt::Debug;

/// What is compared with the peer.
pub struct Others {
    pub library: Option<Box<dyn Library>>,
    pub program: Option<Program>,
}

/// So many places follow the whole of what may be written, to see that they stay.
pub const BEHIND: usize = 3;

fn differ(what: &str, peer: impl Debug, other: impl Debug) -> String {
    format!("{what}\n  the peer:  {peer:?}\n  the other: {other:?}")
}

fn lossy(bytes: &[u8]) -> String {
    String::from_utf8_lossy(bytes).into_owned()
}

/// The printed lines, given so much room for them.
pub fn answers(others: &Others, text: &[u8], printed: &[u8], room: usize) -> Result<(), String> {
    let Some(library) = &others.library else { return Ok(()) };
    // What is behind the printed lines must stay, and so must what is behind the room.
    let mut lines = [b'~'; LINES + BEHIND];
    let length = library.answer(text, &mut lines[..room]);
    let mut wanted = [b'~'; LINES + BEHIND];
    let fitting = printed.len().min(room);
    wanted[..fitting].copy_from_slice(&printed[..fitting]);
    if length != printed.len() || lines != wanted {
        let what = format!("answer of the library, with room for {room} bytes");
        return Err(differ(&what, lossy(printed), (length, lossy(&lines))));
    }
    Ok(())
}

pub fn program(others: &Others, text: &[u8], printed: &[u8]) -> Result<(), String> {
    let Some(program) = &others.program else { return Ok(()) };
    match program.answer(text) {
        Ok(theirs) if theirs == printed => Ok(()),
        Ok(theirs) => Err(differ("answer of the program", lossy(printed), lossy(&theirs))),
        Err(error) => Err(differ("the program ended", lossy(printed), error.to_string())),
    }
}

/// What stands in every place before a call: what is not written is seen, and so is what is
/// written under a refusal.
const NOISE: u64 = 0x5A5A_5A5A;
pub const SIGNED_NOISE: i64 = -0x5A5A_5A5A;

/// What the peer gives and leaves in the lent places, which the library must give and leave too.
pub fn same<T: PartialEq + Debug>(
    others: &Others,
    what: &str,
    ask: impl Fn(&dyn Library) -> T,
) -> Result<T, String> {
    let ours = ask(&Peer);
    if let Some(library) = &others.library {
        let theirs = ask(library.as_ref());
        if ours != theirs {
            return Err(differ(what, ours, theirs));
        }
    }
    Ok(ours)
}

/// Room for numbers, places, scales, ranges and ends of a sheet: what loses nothing.
pub const WHOLE_SHEET: [usize; 5] = [NUMBERS, PLACES, SCALES, RANGES, ENDS];

pub fn sheets(others: &Others, text: &[u8], room: [usize; 5]) -> Result<(), String> {
    let read = |library: &dyn Library| {
        let (mut numbers, mut places) = ([NOISE; NUMBERS + BEHIND], [NOISE; PLACES + BEHIND]);
        let mut scales = [NOISE; SCALES + BEHIND];
        let (mut ranges, mut ends) = ([NOISE; RANGES + BEHIND], [SIGNED_NOISE; ENDS + BEHIND]);
        let lent = names::Sheet {
            numbers: &mut numbers[..room[0]],
            places: &mut places[..room[1]],
            scales: &mut scales[..room[2]],
            ranges: &mut ranges[..room[3]],
            ends: &mut ends[..room[4]],
        };
        (library.sheet(text, lent), numbers, places, scales, ranges, ends)
    };
    same(others, "sheet", read).map(|_| ())
}

/// Room for nodes and their count: what loses nothing.
pub const WHOLE_TABLE: [usize; 2] = [NODES, 1];

pub fn requirements(others: &Others, text: &[u8], room: [usize; 2]) -> Result<u64, String> {
    let read = |library: &dyn Library| {
        let (mut nodes, mut count) = ([NOISE; NODES + BEHIND], [NOISE; 1 + BEHIND]);
        let number = library.requirement(text, &mut nodes[..room[0]], &mut count[..room[1]]);
        (number, nodes, count)
    };
    Ok(same(others, "requirement", read)?.0)
}

/// So many bytes, each unlike its neighbours, of letters that no requirement has.
pub fn pattern(length: usize) -> String {
    "abcdefghijklmnoqrstuvwxyz".chars().cycle().take(length).collect()
}

/// The writer, with so much room for the text: what it hands back, and the slice with what is behind
/// it afterwards, in which `pattern` stood. A byte that is no letter shows as another one than the
/// peer's, so nothing is lost.
pub fn writings(
    others: &Others,
    nodes: &[u64],
    count: u64,
    room: usize,
) -> Result<(Written, String), String> {
    same(others, "writing", |library| {
        let mut text = pattern(room + BEHIND).into_bytes();
        (library.write(nodes, count, &mut text[..room]), lossy(&text))
    })
}

/// The row reader, with slices of the given lengths: times, values, counts.
pub fn rows(
    others: &Others,
    text: &[u8],
    channels: u64,
    lengths: [usize; 3],
) -> Result<u64, String> {
    let read = |library: &dyn Library| {
        let (mut times, mut values) = (vec![NOISE; lengths[0]], vec![SIGNED_NOISE; lengths[1]]);
        let mut counts = [NOISE; COUNTS + BEHIND];
        let lent = &mut counts[..lengths[2]];
        let number = library.rows(text, channels, &mut times, &mut values, lent);
        (number, counts, times, values)
    };
    Ok(same(others, "rows", read)?.0)
}

/// Refusal numbers of the distances of values about each predicate's ends, and of a value given: by
/// good scales in turn, and by a scale given.
pub fn distances(others: &Others, call: &Call, scale: u64, value: i64) -> Result<Vec<u64>, String> {
    const GOOD: [u64; 5] = [1, 2, 7, 10, MOST_SCALE];
    let (ranges, ends) = flat_predicates(&call.predicates);
    let mut numbers = Vec::new();
    for (p, (range, ends)) in ranges.chunks(2).zip(ends.chunks(2)).enumerate() {
        let predicate = (range[0], range[1], ends[0], ends[1]);
        let good = GOOD[(p + call.recording.rows()) % GOOD.len()];
        let about = ends.iter().flat_map(|&end| [(good, end.saturating_sub(1), 1), (good, end, 1)]);
        // No place, one, or one more than is written.
        let further = [(good, value, 1), (scale, value, p % 3), (scale, ends[0], 1)];
        for (scale, value, room) in about.chain(further) {
            numbers.push(distance(others, predicate, scale, value, room)?.0);
        }
    }
    Ok(numbers)
}

/// The refusal number of one distance, and what stands in the first place then.
pub fn distance(
    others: &Others,
    predicate: (u64, u64, i64, i64),
    scale: u64,
    value: i64,
    room: usize,
) -> Result<(u64, i64), String> {
    let (number, result) = same(others, "distance", |library| {
        let mut result = [SIGNED_NOISE; 1 + BEHIND];
        (library.distance(predicate, scale, value, &mut result[..room]), result)
    })?;
    Ok((number, result[0]))
}

/// How much is lent of nodes, ranges, ends and result: what loses nothing.
pub const WHOLE_CALL: [usize; 4] = [NODES, RANGES, ENDS, RESULT];

/// A table and predicates as they are lent. What is lent beyond the last place of all is not looked
/// at.
pub struct Flat {
    pub nodes: Vec<u64>,
    pub count: u64,
    pub ranges: Vec<u64>,
    pub ends: Vec<i64>,
}

impl Flat {
    /// Any count beyond the nodes there are is refused alike.
    pub fn of(table: &Table, predicates: &Predicates, any: usize) -> Flat {
        let (ranges, ends) = flat_predicates(predicates);
        let count = match table.count() as u64 {
            count if count > 64 => [65, 1 << 32, u64::MAX][any % 3],
            count => count,
        };
        Flat {
            nodes: [&flat_nodes(table)[..], &[NOISE; BEHIND]].concat(),
            count,
            ranges: [&ranges[..], &[NOISE; BEHIND]].concat(),
            ends: [&ends[..], &[SIGNED_NOISE; BEHIND]].concat(),
        }
    }
}

/// A refusal's number, and what the result and the work hold then.
pub type Found = (u64, [i64; RESULT + BEHIND], Vec<i64>);

/// What the margin comes to.
pub fn margins(others: &Others, call: &Call, lengths: [usize; 4]) -> Result<Found, String> {
    found(others, "margin", call, lengths, |library, asked, work, result| {
        library.margin(asked, work, result)
    })
}

/// What the verdict comes to.
pub fn verdicts(others: &Others, call: &Call, lengths: [usize; 4]) -> Result<Found, String> {
    found(others, "verdict", call, lengths, |library, asked, work, result| {
        library.verdict(asked, call.step, call.drift, work, result)
    })
}

fn found(
    others: &Others,
    what: &str,
    call: &Call,
    lengths: [usize; 4],
    ask: impl Fn(&dyn Library, &names::Call, &mut [i64], &mut [i64]) -> u64,
) -> Result<Found, String> {
    let flat = Flat::of(&call.table, &call.predicates, call.recording.rows());
    let asked = asked(&flat, call, lengths);
    same(others, what, |library| {
        let (mut work, mut result) = (call.work.clone(), [SIGNED_NOISE; RESULT + BEHIND]);
        (ask(library, &asked, &mut work, &mut result[..lengths[3]]), result, work)
    })
}

fn asked<'a>(flat: &'a Flat, call: &'a Call, lengths: [usize; 4]) -> names::Call<'a> {
    names::Call {
        nodes: &flat.nodes[..lengths[0]],
        count: flat.count,
        ranges: &flat.ranges[..lengths[1]],
        ends: &flat.ends[..lengths[2]],
        channels: call.recording.channels,
        scales: &call.recording.scales,
        times: &call.recording.times,
        values: &call.recording.values,
    }
}

/// How much is lent of nodes, ranges and ends to the making of a watch: what loses nothing.
pub const WHOLE_MAKING: [usize; 3] = [NODES, RANGES, ENDS];

pub fn making<'a>(flat: &'a Flat, scales: &'a [u64], lengths: [usize; 3]) -> names::Making<'a> {
    names::Making {
        nodes: &flat.nodes[..lengths[0]],
        count: flat.count,
        ranges: &flat.ranges[..lengths[1]],
        ends: &flat.ends[..lengths[2]],
        scales,
    }
}

/// A watch that is offered all its rows, as planned: its steps.
pub fn watches(
    others: &Others,
    making: &names::Making,
    watching: &Watching,
    plan: &Plan,
) -> Result<Vec<Step>, String> {
    let ours = play(&Peer, making, &watching.offers, plan)?;
    if let Some(library) = &others.library {
        let theirs = play(library.as_ref(), making, &watching.offers, plan)
            .map_err(|what| format!("the library: {what}"))?;
        if let Some(k) = unlike(&ours, &theirs) {
            return Err(differ(&format!("step {k} of a watch"), ours[k], theirs[k]));
        }
        // The peer in the library's place numbers its states, so its slices differ.
        if plan.remade && cfg!(feature = "proved") {
            every_place_is_fixed(library.as_ref(), making, &watching.offers, &plan.blank)?;
        }
    }
    Ok(ours)
}

/// What the slices held before the making must not count, at any place of the watch.
fn every_place_is_fixed(
    library: &dyn Library,
    making: &names::Making,
    offers: &[Offer],
    noisy: &State,
) -> Result<(), String> {
    let left = left_by(library, making, offers, noisy.clone())?;
    let clear = left_by(library, making, offers, noisy.cleared())?;
    match left.unlike_at(&clear) {
        None => Ok(()),
        Some(at) => Err(format!("the library: what the slices held before counts at {at}")),
    }
}
