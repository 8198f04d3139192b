//! Watches: held to the numbers foretold, to the margin of the rows accepted so far by a second way,
//! and to their slices place by place.

use crate::compare::{self, making, same, Flat, BEHIND, SIGNED_NOISE, WHOLE_CALL, WHOLE_MAKING};
use crate::families::{at, tally_refused, Bench, Failure};
use crate::library::{Library, ENDS, NODES, RANGES};
use crate::names::{Making, WATCH_CELLS, WATCH_NUMBERS};
use crate::play::{unlike, Margin, Plan, State, Step, WHOLE_WATCH};
use crate::watchable;
use peer::carried::Carried;
use peer::generate::calls::Call;
use peer::generate::prng::Prng;
use peer::generate::watches::{watching, Offer, Watching};
use peer::grammar::read_requirement;
use peer::predicate::{Predicate, Range, UNSET};
use peer::recording::Recording;
use peer::refusal::first_of;

/// The family.
pub const WATCH: &str = "watch";

pub fn watched_rows(bench: &mut Bench, rng: &mut Prng) -> Result<(), Failure> {
    let watching = watching(rng);
    let shown = format!("{watching:?}\n").into_bytes();
    let flat = Flat::of(&watching.table, &watching.predicates, rng.below(3));
    let whole = making(&flat, &watching.scales, WHOLE_MAKING);
    let plan = plan(rng, &watching);
    let steps = at(&shown, compare::watches(bench.others, &whole, &watching, &plan))?;
    let margin = at(&shown, held(&watching, &plan, &steps))?;
    if watching.number == 0 {
        at(&shown, as_a_recording(bench, &watching, margin))?;
    }
    tally(bench, &watching, &steps);
    if rng.once_in(4) {
        at(&shown, short_slices(bench, rng, &whole, &watching))?;
    }
    if rng.once_in(4) {
        at(&shown, no_watch(bench, rng, &whole, &watching))?;
    }
    if rng.once_in(8) {
        // What a slice does not have reads as 0: the table or a predicate may be another.
        let lengths = [rng.below(NODES + 4), rng.below(RANGES + 4), rng.below(ENDS + 4)];
        let cut = making(&flat, &watching.scales, lengths);
        let steps = at(&shown, compare::watches(bench.others, &cut, &watching, &plan))?;
        bench.tally.add(format!("{WATCH}, cut refused={}", steps[0].0));
    }
    Ok(())
}

/// Slices as long as needed or longer; no place, one or more for a margin.
fn plan(rng: &mut Prng, watching: &Watching) -> Plan {
    let longer = rng.pick(&[[0, 0], [0, 0], [1, 0], [0, 1], [7, 9], [400, 300]]);
    let lent = [WATCH_NUMBERS + longer[0], WATCH_CELLS + longer[1]];
    Plan {
        blank: State::noisy(rng, lent),
        asked: None,
        room: rng.pick(&[0, 1, 1, 1, 1, 2, 4]),
        copied: rng.once_in(4).then(|| rng.below(watching.offers.len())),
        remade: rng.once_in(4),
    }
}

/// A refusal's number and nothing written, or a margin where there is room for it.
fn wanted_margin(number: u64, margin: i64, room: usize) -> Margin {
    let mut result = [SIGNED_NOISE; 1 + BEHIND];
    if number == 0 && room > 0 {
        result[0] = margin;
    }
    (number, result)
}

/// Each number is the one foretold, and each margin that of the rows which nothing was to refuse, by a
/// second way, which keeps no row. That of all of them is handed back.
fn held(watching: &Watching, plan: &Plan, steps: &[Step]) -> Result<i64, String> {
    let refused = watching.number;
    let mut carried = Carried::over(&watching.table, &watching.predicates, &watching.scales);
    let mut margin = wanted_margin(if refused == 0 { 5 } else { refused }, 0, plan.room);
    let mut wanted = vec![(refused, Some(margin))];
    for (k, offer) in watching.offers.iter().enumerate() {
        let number = if refused == 0 { offer.number } else { refused };
        if number == 0 {
            carried.take(offer.time, &offer.values);
            margin = wanted_margin(0, carried.margin(), plan.room);
        }
        wanted.push((number, plan.asks(k).then_some(margin)));
    }
    match unlike(steps, &wanted) {
        Some(k) => Err(format!("step {k} of a watch: {:?}, foretold {:?}", steps[k], wanted[k])),
        None if refused == 0 => Ok(carried.margin()),
        None => Ok(0),
    }
}

/// "The margin after it equals the margin of the recording made of the rows accepted so far": by the
/// entry point that judges recordings.
fn as_a_recording(bench: &Bench, watching: &Watching, margin: i64) -> Result<(), String> {
    let rows: Vec<&Offer> = watching.offers.iter().filter(|offer| offer.number == 0).collect();
    let recording = Recording {
        channels: watching.scales.len() as u64,
        scales: watching.scales.clone(),
        times: rows.iter().map(|row| row.time).collect(),
        values: rows.iter().flat_map(|row| row.values.iter().copied()).collect(),
    };
    let work = vec![0; watching.table.count() * recording.rows()];
    let (table, predicates) = (watching.table.clone(), watching.predicates);
    let call = Call { table, predicates, recording, step: 1, drift: 0, work };
    let (number, result, _) = compare::margins(bench.others, &call, WHOLE_CALL)?;
    if (number, result[0]) != (0, margin) {
        let found = (number, result[0]);
        return Err(format!("the margin of the rows is {found:?}, watched {margin}"));
    }
    Ok(())
}

/// Slices that hold no watch: the making is refused by 8 if by nothing else, a row and a margin by 8
/// whatever they are, and nothing is written.
fn short_slices(
    bench: &mut Bench,
    rng: &mut Prng,
    making: &Making,
    watching: &Watching,
) -> Result<(), String> {
    let any = [rng.below(WATCH_NUMBERS), rng.below(2 * WATCH_CELLS)];
    let blank = State::noisy(rng, WHOLE_WATCH);
    let offer = &watching.offers[rng.below(watching.offers.len())];
    for lent in [[0, 0], [WATCH_NUMBERS - 1, WATCH_CELLS], [WATCH_NUMBERS, WATCH_CELLS - 1], any] {
        let small = State::noisy(rng, lent);
        let asked = |library: &dyn Library| {
            let mut unmade = small.clone();
            let number = unmade.fresh(library, making)?;
            // The front of a watch is none.
            let mut front = blank.clone();
            front.fresh(library, making)?;
            front.row(library, offer)?;
            front.numbers.resize(lent[0].max(WATCH_NUMBERS), 0);
            front.cells.resize(lent[1].max(WATCH_CELLS), 0);
            front.lent = lent;
            let row = front.row(library, offer)?;
            Ok::<_, String>((number, row, front.margin(library, 1)))
        };
        let found = same(bench.others, "a watch in short slices", asked)??;
        let number = first_of(&[watching.number, 8]);
        let wanted = (number, 8, wanted_margin(8, 0, 1));
        if found != wanted {
            return Err(format!("a watch in {lent:?} places: {found:?}, foretold {wanted:?}"));
        }
        bench.tally.add(format!("{WATCH}, short refused={number}"));
    }
    Ok(())
}

/// What no making has written: any answer will do, but it must come, and nothing behind the slices may
/// be written.
fn no_watch(
    bench: &mut Bench,
    rng: &mut Prng,
    making: &Making,
    watching: &Watching,
) -> Result<(), String> {
    let lent = [WATCH_NUMBERS + rng.below(3), WATCH_CELLS + rng.below(3)];
    let blank = State::noisy(rng, lent);
    let (seed, offers) = (rng.word(), &watching.offers[..watching.offers.len().min(12)]);
    let kind = rng.pick(&watchable::NO_WATCHES);
    let asked = |library: &dyn Library| {
        let mut state = blank.clone();
        if kind != watchable::NOISE {
            state.fresh(library, making)?;
        }
        for (k, offer) in offers.iter().enumerate() {
            if k == offers.len() / 2 {
                watchable::spoil(&mut state, kind, &mut Prng::new(seed));
            }
            state.any_row(library, offer);
            let (_, result) = state.margin(library, 1);
            if !state.same_from(&blank, lent) || result[1..] != [SIGNED_NOISE; BEHIND] {
                return Err(format!("{kind}: something behind what was lent was written"));
            }
        }
        Ok(())
    };
    same(bench.others, "no watch", asked)??;
    bench.tally.add(format!("{WATCH}: {kind}"));
    Ok(())
}

fn tally(bench: &mut Bench, watching: &Watching, steps: &[Step]) {
    let made = watching.number == 0;
    bench.tally.add(format!("{WATCH} refused={}", watching.number));
    tally_refused(bench.tally, &watching.table);
    for (number, margin) in &steps[1..] {
        let row = if made { "row" } else { "refused watch, row" };
        bench.tally.add(format!("{WATCH}, {row} refused={number}"));
        if let Some((number, _)) = margin.filter(|_| made) {
            bench.tally.add(format!("{WATCH}, margin refused={number}"));
        }
    }
    for about in watchable::about(watching) {
        bench.tally.add(format!("{WATCH}: {about}"));
    }
}

/// More rows than a recording may have.
const LONG_ROWS: usize = 5_000;

/// Watches over more rows than a recording may have: the same in every run.
pub fn limit_watches(bench: &mut Bench) -> Result<(), Failure> {
    for text in [
        "p0U[0,*]p1", "p0R[0,*]p1", "p0U(3999,4501)p1&!(p1R(4998,4999]p0)",
        "F(4096,*]p1|G[0,5000)(p0&!p1)",
    ] {
        let shown = format!("{text}, {LONG_ROWS} rows\n").into_bytes();
        let asked = vec![0, 4_095, 4_096, 4_097, LONG_ROWS - 1];
        at(&shown, plainly_watched(bench, &long(text), Some(asked)))?;
        bench.tally.add("limits");
    }
    Ok(())
}

/// A watch that is offered its rows once; margins are asked for behind these, or behind all.
pub fn plainly_watched(
    bench: &Bench,
    watching: &Watching,
    asked: Option<Vec<usize>>,
) -> Result<(), String> {
    let flat = Flat::of(&watching.table, &watching.predicates, 0);
    let whole = making(&flat, &watching.scales, WHOLE_MAKING);
    let blank = State::noisy(&mut Prng::new(7), WHOLE_WATCH);
    let plan = Plan { blank, asked, room: 1, copied: None, remade: false };
    let steps = compare::watches(bench.others, &whole, watching, &plan)?;
    held(watching, &plan, &steps).map(|_| ())
}

/// One-second rows whose values fall: p0 is missed in the end, p1 kept ever more.
fn long(text: &str) -> Watching {
    let mut predicates = [UNSET; 16];
    predicates[0] = Predicate { channel: 0, range: Range::AtLeast(400) };
    predicates[1] = Predicate { channel: 0, range: Range::AtMost(3_000) };
    let table = read_requirement(text.as_bytes()).expect("a requirement");
    let row = |k: usize| Offer { time: k as u64, values: vec![5_000 - k as i64], number: 0 };
    let offers = (0..LONG_ROWS).map(row).collect();
    Watching { table, predicates, scales: vec![3], number: 0, offers }
}
