//! Sheets with faults put in on purpose, so that the refusals are known without reading them: of
//! each requirement the first number, in the order of refusals, among the faults that concern it.

use super::draft::{joined, requirement_line, scale_line, Draft, PredicateLine};
use super::marks;
use super::prng::Prng;
use super::requirements::window_text;
use super::scales::BAD_IN_A_SHEET;
use super::sheets::{filled, sound};
use crate::limits::{
    LARGEST_SIGNED, LARGEST_STEP, LARGEST_UNSIGNED, LARGEST_VALUE, LAST_TIME, MOST_BYTES,
    MOST_REQUIREMENTS,
};
use crate::refusal::{first_of, last_to_first, of_a_sheet};
use crate::rows::Row;

/// The number that a whole sheet is refused by (1 or 12), else for each requirement the number
/// that it is refused by, 0 for none.
pub type Numbers = Result<Vec<u64>, u64>;

/// A sheet with one to three faults, and the numbers that it must be refused by.
pub fn faulty(rng: &mut Prng) -> (Vec<u8>, Numbers) {
    let mut draft = sound(rng).draft;
    let numbers: Vec<u64> = (0..1 + rng.below(3)).map(|_| rng.pick(&of_a_sheet())).collect();
    let mut entries = vec![Vec::new(); draft.requirements.len()];
    // Cells run out by many rows and nodes, which later faults keep.
    if numbers.contains(&8) {
        too_many_cells(rng, &mut draft);
        for k in some(rng, entries.len()) {
            draft.requirements[k] = sixty_four_nodes();
            entries[k].push(8);
        }
    }
    // A fault that counts later goes in earlier: one that counts before it may undo it, and wins
    // anyway.
    for number in last_to_first(&numbers) {
        for k in put(rng, &mut draft, number) {
            entries[k].push(number);
        }
    }
    if numbers.contains(&1) {
        return (broken_text(rng, &draft), Err(1));
    }
    if numbers.contains(&12) {
        return (draft.text(), Err(12));
    }
    (draft.text(), Ok(entries.iter().map(|own| first_of(own)).collect()))
}

/// Some of so many requirements, at least one; half the time all.
pub fn some(rng: &mut Prng, count: usize) -> Vec<usize> {
    let one = rng.below(count);
    let all = rng.once_in(2);
    (0..count).filter(|&k| k == one || all || rng.once_in(3)).collect()
}

/// Puts a fault in. Gives the requirements that it concerns: all, if it is one of the recording.
fn put(rng: &mut Prng, draft: &mut Draft, number: u64) -> Vec<usize> {
    let all = (0..draft.requirements.len()).collect();
    match number {
        2 => {
            let some = some(rng, draft.requirements.len());
            some.iter().for_each(|&k| draft.requirements[k] = bad_requirement(rng));
            return some;
        }
        3 => return name_unset(rng, draft),
        12 => too_many_requirements(rng, draft),
        4 => bad_channels_or_predicate(rng, draft),
        13 => bad_scale(rng, draft),
        5 => bad_row_count(rng, draft),
        6 => bad_times(rng, draft),
        7 => bad_value(rng, draft),
        9 => bad_step_or_drift(rng, draft),
        10 => gap(rng, draft),
        11 => jump(rng, draft),
        // 8 goes in before all others, 1 into the text.
        _ => return Vec::new(),
    }
    all
}

/// Seventeen lines and more: the sheet's own, and any further ones, bad ones among them.
fn too_many_requirements(rng: &mut Prng, draft: &mut Draft) {
    let count = MOST_REQUIREMENTS + 1 + rng.pick(&[0, 0, 0, 1, 2, 9]);
    while draft.requirements.len() < count {
        let further = match rng.below(4) {
            0 => bad_requirement(rng),
            1 => b"T".to_vec(),
            _ => draft.requirements[rng.below(draft.requirements.len())].clone(),
        };
        draft.requirements.insert(rng.below(draft.requirements.len() + 1), further);
    }
}

pub fn bad_requirement(rng: &mut Prng) -> Vec<u8> {
    let repeated = |open: &str, inner: &str, close: &str| {
        [open.repeat(33), inner.to_string(), close.repeat(33)].concat()
    };
    let fixed = [
        "", " ", "p0 ", " p0", "p0\r", "p0\0", "p", "p16", "p01", "p155", "q0", "T|", "&T", "T||T",
        "(T", "T)", "()", "G[5,2]p0", "G[0,1000000001]T", "F[1000000001,*]T", "F[0,4294967295]T",
        "G[0,01]T", "G[00,1]T", "G[0 ,1]T", "GT", "G[0,1]", "G[*,1]T", "TUT", "TU[0,1]",
        "TU[0,1]TU[0,1]T", "TR[0,1]TU[0,1]T", "!", "T!T", "-T", "G[-0,1]T", "G[0,-1]T", "TS[0,1]T",
        "O[0,1]T", "G[0,99999999999999999999]T", "f[0,1]T", "F (0,1]T", "F(T)", "F((0,1]T)",
        "F(0,1](T", "F(0,1]T)", "F(0,1T", "F)0,1(T", "F(*,1]T", "F(1000000001,*]T",
        "G[0,1000000001)T", "TU(T)",
    ];
    match rng.below(7) {
        0 => repeated("(", "T", ")").into_bytes(),
        1 => {
            let enclosing = rng.pick(&["!", "G[0,1]", "F[0,*]", "F(0,1]", "G[0,1)"]);
            repeated(enclosing, "T", "").into_bytes()
        }
        // 33 leaves and 32 operators are 65 nodes.
        2 => vec!["T"; 33].join(rng.pick(&["|", "&"])).into_bytes(),
        3 => {
            let window = window_text(marks::refused(rng));
            format!("{}{window}T", rng.pick(&["F", "G", "TU", "TR"])).into_bytes()
        }
        _ => rng.pick(&fixed).as_bytes().to_vec(),
    }
}

/// Some requirements name a number that has no line; or one loses its line, and all name that.
fn name_unset(rng: &mut Prng, draft: &mut Draft) -> Vec<usize> {
    let count = draft.requirements.len();
    let unset: Vec<u64> = (0..16).filter(|&number| !draft.is_set(number)).collect();
    let some = some(rng, count);
    if some.len() < count && !unset.is_empty() {
        let number = rng.pick(&unset);
        some.iter().for_each(|&k| draft.requirements[k] = naming(rng, number));
        return some;
    }
    let number = rng.below(16) as u64;
    draft.predicates.retain(|predicate| predicate.number != number);
    draft.requirements.iter_mut().for_each(|requirement| *requirement = naming(rng, number));
    (0..count).collect()
}

pub fn naming(rng: &mut Prng, number: u64) -> Vec<u8> {
    match rng.below(3) {
        0 => format!("p{number}"),
        // The margin of true or anything is TOP; the predicate is judged all the same.
        1 => format!("T|p{number}"),
        _ => format!("G[0,*](T&F[3,9]p{number})"),
    }
    .into_bytes()
}

fn bad_channels_or_predicate(rng: &mut Prng, draft: &mut Draft) {
    if rng.once_in(3) {
        draft.break_channels(rng.pick(&[0, 9, 10, 4_294_967_295]));
        return;
    }
    let number = (0..16).find(|&number| !draft.is_set(number)).unwrap_or(16);
    if number < 16 {
        draft.set(PredicateLine { number, channel: 0, lo: None, hi: None });
    }
    let place = rng.below(draft.predicates.len());
    let channels = draft.channels;
    let predicate = &mut draft.predicates[place];
    let beyond = rng.pick(&[LARGEST_VALUE + 1, LARGEST_SIGNED as i64]);
    match rng.below(6) {
        0 => predicate.channel = channels,
        1 => predicate.channel = rng.pick(&[channels + 1, LARGEST_UNSIGNED]),
        2 => predicate.lo = Some(beyond),
        3 => predicate.lo = Some(-beyond),
        4 => predicate.hi = Some(rng.pick(&[-beyond, beyond])),
        _ => {
            let hi = rng.between(-20, 20);
            (predicate.lo, predicate.hi) = (Some(hi + rng.pick(&[1, 1, 9])), Some(hi));
        }
    }
}

/// One scale out of range, or several; also one that no predicate and no jump concerns.
fn bad_scale(rng: &mut Prng, draft: &mut Draft) {
    for channel in some(rng, draft.scales.len()) {
        draft.scales[channel] = rng.pick(&BAD_IN_A_SHEET);
    }
}

fn bad_row_count(rng: &mut Prng, draft: &mut Draft) {
    // More than the program's room, where that many rows still fit into the text.
    if draft.channels <= 3 && rng.once_in(8) {
        let values = vec![0; draft.channels as usize];
        let row = |time| Row { time, measured: true, values: values.clone() };
        draft.rows = (0..2_049).map(row).collect();
    } else if rng.once_in(2) {
        draft.rows.retain(|row| !row.measured);
    } else {
        draft.rows.iter_mut().for_each(|row| row.measured = false);
    }
}

fn bad_times(rng: &mut Prng, draft: &mut Draft) {
    let measured = draft.measured();
    let place = rng.below(measured.len());
    if place == 0 || rng.once_in(3) {
        let last = measured[measured.len() - 1];
        draft.rows[last].time = rng.pick(&[LAST_TIME + 1, LARGEST_UNSIGNED]);
    } else {
        let before = draft.rows[measured[place - 1]].time;
        let earlier = rng.pick(&[0, 0, 1, before]);
        draft.rows[measured[place]].time = before - earlier.min(before);
    }
}

fn bad_value(rng: &mut Prng, draft: &mut Draft) {
    let place = rng.pick(&draft.measured());
    let channel = rng.below(draft.rows[place].values.len());
    let beyond = rng.pick(&[LARGEST_VALUE + 1, LARGEST_SIGNED as i64]);
    draft.rows[place].values[channel] = rng.pick(&[beyond, -beyond]);
}

pub fn sixty_four_nodes() -> Vec<u8> {
    format!("!{}", vec!["T"; 32].join("|")).into_bytes()
}

/// At least 65 rows, too many for 64 nodes; a gap's fault may take one row away.
pub fn too_many_cells(rng: &mut Prng, draft: &mut Draft) {
    let rows = 66 + rng.below(8) as u64;
    let values = vec![3; draft.channels as usize];
    let step = draft.step.min(20_000_000);
    let row = |time| Row { time: time * step, measured: true, values: values.clone() };
    draft.rows = (0..rows).map(row).collect();
}

fn bad_step_or_drift(rng: &mut Prng, draft: &mut Draft) {
    let large = rng.pick(&[1_000_000_001, LARGEST_UNSIGNED]);
    match rng.below(3) {
        0 => draft.step = 0,
        1 => draft.step = large,
        _ => draft.drift = large,
    }
}

/// The places of at least two measured rows.
fn two_measured(draft: &mut Draft) -> Vec<usize> {
    let measured = draft.measured();
    if measured.len() > 1 {
        return measured;
    }
    let mut second = draft.rows[measured[0]].clone();
    draft.rows[measured[0]].time = 0;
    second.time = 1;
    draft.rows.push(second);
    draft.measured()
}

fn gap(rng: &mut Prng, draft: &mut Draft) {
    let measured = two_measured(draft);
    let interior = 1 + rng.below(measured.len() - 1);
    if interior + 1 < measured.len() {
        // A filled row closes no gap: its neighbours are just too far apart.
        draft.rows[measured[interior]].measured = false;
        let after = draft.rows[measured[interior + 1]].time;
        let before = draft.rows[measured[interior - 1]].time;
        draft.step = (after - before - 1).min(LARGEST_STEP);
    } else {
        draft.step = 1;
        let before = draft.rows[measured[interior - 1]].time;
        let last = &mut draft.rows[measured[interior]];
        last.time = last.time.max(before + 2);
        if last.time > LAST_TIME {
            draft.rows[measured[interior - 1]].time = before - 2;
            draft.rows[measured[interior]].time = LAST_TIME;
        }
    }
}

/// The least jump that is more than twice the drift, times the channel's scale.
fn jump(rng: &mut Prng, draft: &mut Draft) {
    let measured = two_measured(draft);
    let second = 1 + rng.below(measured.len() - 1);
    let channel = rng.below(draft.rows[measured[0]].values.len());
    let before = draft.rows[measured[second - 1]].values[channel];
    draft.drift = draft.drift.min(1_000);
    let jump = (2 * draft.drift / draft.scales[channel]) as i64 + 1;
    let up = before + jump <= LARGEST_VALUE && (rng.once_in(2) || before - jump < -LARGEST_VALUE);
    draft.rows[measured[second]].values[channel] = if up { before + jump } else { before - jump };
}

/// A fault of the text form, put into the written sheet.
fn broken_text(rng: &mut Prng, draft: &Draft) -> Vec<u8> {
    let lines = draft.lines();
    let (first, rows) = (draft.lines_before_requirements(), draft.lines_before_rows());
    let rows_are_read = (1..=8).contains(&draft.channels);
    // A requirement's line is judged by its key alone, so most faults go elsewhere.
    let judged = if rows_are_read { lines.len() } else { first };
    let place = loop {
        let place = rng.below(judged);
        if !(first..rows).contains(&place) {
            break place;
        }
    };
    match rng.below(9) {
        0 => with_line(&lines, place, broken_layout(rng, &lines[place])),
        1 | 2 => with_line(&lines, place, broken_field(rng, &lines[place])),
        3 => broken_order(rng, draft, lines),
        4 if rows_are_read => broken_tail(rng, draft, lines),
        5 if rng.once_in(10) => too_long(rng, draft),
        6 => unended(draft),
        7 => unordered(rng, draft),
        8 => broken_scales(rng, draft),
        _ => {
            let keys = ["chan=", "c=", "p=", "step=", "drift=", "req=", "t=", "", "#", "Req="];
            // Behind the `req=` lines another one is no fault.
            let fits = |key: &str| lines[place].starts_with(key.as_bytes()) && !key.is_empty();
            let kept: Vec<&&str> = keys
                .iter()
                .filter(|&&key| !fits(key) && (key != "req=" || place != rows))
                .collect();
            let value = lines[place].iter().position(|&byte| byte == b'=').map_or(0, |at| at + 1);
            // A `p=` line may stand where `step=` is due; with step's value it has too few fields.
            let line = [rng.pick(&kept).as_bytes(), &lines[place][value..]].concat();
            with_line(&lines, place, line)
        }
    }
}

/// The text ends in its last `req=` line, before the line feed.
pub fn unended(draft: &Draft) -> Vec<u8> {
    let mut text = joined(&draft.lines()[..draft.lines_before_rows()]);
    text.pop();
    text
}

fn with_line(lines: &[Vec<u8>], place: usize, line: Vec<u8>) -> Vec<u8> {
    let mut lines = lines.to_vec();
    lines[place] = line;
    joined(&lines)
}

fn broken_layout(rng: &mut Prng, line: &[u8]) -> Vec<u8> {
    let line = String::from_utf8(line.to_vec()).expect("only a requirement may be no text");
    match rng.below(7) {
        0 => format!("{line}\r"),
        1 => format!("{line} "),
        2 => format!(" {line}"),
        3 if line.contains(' ') => line.replacen(' ', "  ", 1),
        4 if line.contains(' ') => line.replacen(' ', "\t", 1),
        5 if line.contains(' ') => line.replacen(' ', "", 1),
        _ => line.replacen('=', " =", 1),
    }
    .into_bytes()
}

/// A field whose value no field may have.
fn broken_field(rng: &mut Prng, line: &[u8]) -> Vec<u8> {
    let mut fields: Vec<Vec<u8>> = line.split(|&byte| byte == b' ').map(<[u8]>::to_vec).collect();
    let place = rng.below(fields.len());
    let key_end = fields[place].iter().position(|&byte| byte == b'=').expect("a key") + 1;
    let key = fields[place][..key_end].to_vec();
    let any = [
        "", "00", "01", "-0", "-", "+1", "1x", "x", "0x1", "00000000001", "10000000000",
        "4294967296", "--1", "1-", "1.0", "\0",
    ];
    let bad: &[&str] = match key.as_slice() {
        b"src=" => &["", "M", "F", "x", "mm", "fm", "1"],
        b"p=" => &["16", "17", "99", "4294967295", "01", "-1", ""],
        b"c=" => &["8", "9", "4294967295", "00", "01", "-0", "-1", "*", ""],
        key if key.starts_with(b"v") || key == b"lo=" || key == b"hi=" => &[
            "2147483648", "-2147483648", "4294967295", "-0", "-01", "--1", "", "-", "**", "+5",
            "00000000001",
        ],
        _ => &any,
    };
    fields[place] = [&key[..], rng.pick(bad).as_bytes()].concat();
    fields.join(&b' ')
}

/// A line missing, twice, or out of its place.
fn broken_order(rng: &mut Prng, draft: &Draft, mut lines: Vec<Vec<u8>>) -> Vec<u8> {
    let (first, rows) = (draft.lines_before_requirements(), draft.lines_before_rows());
    let (step, drift) = (first - 2, first - 1);
    match rng.below(6) {
        0 => {
            let place = rng.pick(&[0, step, drift]);
            lines.remove(place);
        }
        1 => lines.swap(step, drift),
        2 => lines.swap(0, rng.pick(&[step, drift, first])),
        3 => {
            let place = rng.pick(&[0, step, drift]);
            lines.insert(place, lines[place].clone());
        }
        // No `req=` line is left.
        4 => drop(lines.drain(first..rows)),
        // Behind the first `req=` line it might stand where nothing is read.
        _ => lines.insert(rng.below(first + 1), Vec::new()),
    }
    joined(&lines)
}

/// `c=` lines of which one is missing, twice, one too many, or not in its place; or lines where
/// none is due, because `chan=` isn't 1 to 8.
fn broken_scales(rng: &mut Prng, draft: &Draft) -> Vec<u8> {
    let mut lines = draft.lines();
    let count = draft.scales.len();
    if count == 0 {
        let further = rng.pick(&[1, 1, 8, 9]);
        lines.splice(1..1, (0..further).map(|channel| scale_line(channel, 1)));
        return joined(&lines);
    }
    // Behind `chan=`: channel c's line is at place c + 1.
    let one = 1 + rng.below(count);
    match rng.below(10) {
        0 => drop(lines.remove(one)),
        1 => drop(lines.drain(1..=count)),
        2 => lines.insert(one, lines[one].clone()),
        3 => lines.insert(count + 1, scale_line(count, 1)),
        4 if count > 1 => lines.swap(one, 1 + one % count),
        // Numbers from 1, or the last channel's for all.
        5 => (1..=count).for_each(|c| lines[c] = scale_line(c, draft.scales[c - 1])),
        6 if count > 1 => {
            (1..=count).for_each(|c| lines[c] = scale_line(count - 1, draft.scales[c - 1]))
        }
        7 => lines[0] = rng.pick(&["chan=0", "chan=9", "chan=4294967295"]).into(),
        // The first line in front of `chan=`, or the last one behind a predicate or `step=`.
        8 => lines.swap(0, 1),
        _ => {
            let last = lines.remove(count);
            lines.insert(count + 1 + rng.below(draft.predicates.len() + 1), last);
        }
    }
    joined(&lines)
}

/// `p=` lines whose numbers do not rise: two have changed places, or a number has two lines, side by
/// side, most of them with other ends, or with others between.
fn unordered(rng: &mut Prng, draft: &Draft) -> Vec<u8> {
    let mut predicates = draft.predicates.clone();
    let count = predicates.len();
    let one = rng.below(count.max(1));
    match rng.below(3) {
        0 if count > 1 => predicates.swap(one, (one + 1 + rng.below(count - 1)) % count),
        1 if count > 1 => {
            let (from, to) = rng.pick(&[(0, count), (count - 1, 0)]);
            predicates.insert(to, predicates[from].clone());
        }
        _ => {
            let number = predicates.get(one).map_or(rng.below(16) as u64, |line| line.number);
            let line = PredicateLine { number, channel: 0, lo: None, hi: Some(7) };
            predicates.splice(one..one, vec![line; if count == 0 { 2 } else { 1 }]);
        }
    }
    Draft { predicates, ..draft.clone() }.text()
}

/// A fault behind the requirements, of a sheet whose rows are read.
fn broken_tail(rng: &mut Prng, draft: &Draft, mut lines: Vec<Vec<u8>>) -> Vec<u8> {
    let (first, rows) = (draft.lines_before_requirements(), draft.lines_before_rows());
    let mut row =
        Draft { rows: vec![filled(rng, draft.channels)], ..draft.clone() }.lines().remove(rows);
    match rng.below(7) {
        0 => row.extend(format!(" v{}=0", draft.channels).bytes()),
        1 => {
            let end = row.iter().rposition(|&byte| byte == b' ').expect("a field of values");
            row.truncate(end);
        }
        2 => row.clear(),
        3 => row = lines[rng.below(first)].clone(),
        4 => {
            // A requirement behind a row.
            lines.insert(rows, row);
            row = requirement_line(b"T");
            lines.insert(rows + 1 + rng.below(lines.len() - rows), row);
            return joined(&lines);
        }
        5 => {
            // The rows begin at the blank line, and a requirement may follow.
            lines.insert(first + 1 + rng.below(lines.len() - first), Vec::new());
            return joined(&lines);
        }
        _ => {
            // The last line's line feed is missing.
            lines.push(row);
            let mut text = joined(&lines);
            text.pop();
            return text;
        }
    }
    lines.insert(rows + rng.below(lines.len() - rows + 1), row);
    joined(&lines)
}

/// Well-written, but beyond 65,536 bytes.
fn too_long(rng: &mut Prng, draft: &Draft) -> Vec<u8> {
    let mut text = draft.text();
    while text.len() <= MOST_BYTES {
        let long = Draft { rows: vec![filled(rng, draft.channels.min(8))], ..draft.clone() };
        text.extend(long.lines().remove(draft.lines_before_rows()));
        text.push(b'\n');
    }
    text
}
