//! One list of rows offered to one implementation of the watch, with an eye on every place of the
//! slices that the watch stands in.

use crate::compare::{BEHIND, SIGNED_NOISE};
use crate::library::Library;
use crate::names::{Making, WATCH_CELLS, WATCH_NUMBERS};
use peer::generate::prng::Prng;
use peer::generate::watches::Offer;

/// What a watch stands in as it is lent: as much as it needs.
pub const WHOLE_WATCH: [usize; 2] = [WATCH_NUMBERS, WATCH_CELLS];

/// The slices that a watch stands in, and places behind them that are not lent.
#[derive(Clone, PartialEq, Eq, Debug)]
pub struct State {
    pub numbers: Vec<u64>,
    pub cells: Vec<i64>,
    /// How many of each are lent.
    pub lent: [usize; 2],
}

/// The refusal number of a margin, and the result with what is behind it.
pub type Margin = (u64, [i64; 1 + BEHIND]);

impl State {
    /// Noise everywhere, behind what is lent too.
    pub fn noisy(rng: &mut Prng, lent: [usize; 2]) -> State {
        let longest = lent.map(|length| length + BEHIND);
        State {
            numbers: (0..longest[0].max(WATCH_NUMBERS)).map(|_| rng.word()).collect(),
            cells: (0..longest[1].max(WATCH_CELLS)).map(|_| rng.word() as i64).collect(),
            lent,
        }
    }

    /// As much room, with 0 everywhere.
    pub fn cleared(&self) -> State {
        State {
            numbers: vec![0; self.numbers.len()],
            cells: vec![0; self.cells.len()],
            lent: self.lent,
        }
    }

    /// The first place at which the watches in both differ.
    pub fn unlike_at(&self, other: &State) -> Option<String> {
        let number = (0..WATCH_NUMBERS).find(|&i| self.numbers[i] != other.numbers[i]);
        let cell = (0..WATCH_CELLS).find(|&i| self.cells[i] != other.cells[i]);
        number.map(|i| format!("number {i}")).or(cell.map(|i| format!("cell {i}")))
    }

    fn slices(&mut self) -> (&mut [u64], &mut [i64]) {
        (&mut self.numbers[..self.lent[0]], &mut self.cells[..self.lent[1]])
    }

    fn fits(&self) -> bool {
        self.lent[0] >= WATCH_NUMBERS && self.lent[1] >= WATCH_CELLS
    }

    /// Whether all is as it was from these places on.
    pub fn same_from(&self, before: &State, from: [usize; 2]) -> bool {
        self.numbers[from[0]..] == before.numbers[from[0]..]
            && self.cells[from[1]..] == before.cells[from[1]..]
    }

    /// Makes a watch: a refused one is written too, if it has the room, and nothing behind it.
    pub fn fresh(&mut self, library: &dyn Library, making: &Making) -> Result<u64, String> {
        let before = self.clone();
        let (numbers, cells) = self.slices();
        let number = library.watch_fresh(making, numbers, cells);
        let from = if self.fits() { WHOLE_WATCH } else { [0, 0] };
        if !self.same_from(&before, from) {
            return Err(format!("a making, refused by {number}, wrote behind the watch"));
        }
        Ok(number)
    }

    /// Offers a row: one that is refused changes nothing, another one the watch alone.
    pub fn row(&mut self, library: &dyn Library, offer: &Offer) -> Result<u64, String> {
        let before = self.clone();
        let number = self.any_row(library, offer);
        if number != 0 && *self != before {
            return Err(format!("a row refused by {number} changed the watch: {offer:?}"));
        }
        if number == 0 && *self == before {
            return Err(format!("an accepted row left the watch as it was: {offer:?}"));
        }
        if !self.same_from(&before, WHOLE_WATCH) {
            return Err(format!("a row was written behind the watch: {offer:?}"));
        }
        Ok(number)
    }

    /// Offers a row, whatever stands in the slices.
    pub fn any_row(&mut self, library: &dyn Library, offer: &Offer) -> u64 {
        let (numbers, cells) = self.slices();
        library.watch_row(numbers, cells, offer.time, &offer.values)
    }

    /// The margin, with so much room for it.
    pub fn margin(&self, library: &dyn Library, room: usize) -> Margin {
        let mut result = [SIGNED_NOISE; 1 + BEHIND];
        let (numbers, cells) = (&self.numbers[..self.lent[0]], &self.cells[..self.lent[1]]);
        (library.watch_margin(numbers, cells, &mut result[..room]), result)
    }
}

/// How rows are offered.
pub struct Plan {
    /// What the slices hold before.
    pub blank: State,
    /// Behind which rows the margin is asked for; behind all where this is none.
    pub asked: Option<Vec<usize>>,
    /// How much is lent for a margin.
    pub room: usize,
    /// The watch is copied before the row of this number. The copy goes on when the list is done.
    pub copied: Option<usize>,
    /// The watch is made anew when the list is done, in the same place, and offered it once more.
    pub remade: bool,
}

impl Plan {
    /// Whether the margin is asked for behind that row.
    pub fn asks(&self, k: usize) -> bool {
        self.asked.as_ref().is_none_or(|asked| asked.contains(&k))
    }
}

/// What is given for a row: its number, and the margin behind it where that was asked for. The first
/// step is the making.
pub type Step = (u64, Option<Margin>);

/// The first step that differs.
pub fn unlike(one: &[Step], other: &[Step]) -> Option<usize> {
    one.iter().zip(other).position(|(one, other)| one != other)
}

pub fn play(
    library: &dyn Library,
    making: &Making,
    offers: &[Offer],
    plan: &Plan,
) -> Result<Vec<Step>, String> {
    let mut state = plan.blank.clone();
    let steps = play_in(&mut state, library, making, offers, plan)?;
    if plan.remade {
        let again = play_in(&mut state, library, making, offers, plan)?;
        if let Some(k) = unlike(&steps, &again) {
            return Err(format!("made anew, step {k} is {:?}, not {:?}", again[k], steps[k]));
        }
    }
    Ok(steps)
}

/// The slices when the list is done.
pub fn left_by(
    library: &dyn Library,
    making: &Making,
    offers: &[Offer],
    mut state: State,
) -> Result<State, String> {
    state.fresh(library, making)?;
    for offer in offers {
        state.row(library, offer)?;
    }
    Ok(state)
}

fn play_in(
    state: &mut State,
    library: &dyn Library,
    making: &Making,
    offers: &[Offer],
    plan: &Plan,
) -> Result<Vec<Step>, String> {
    let number = state.fresh(library, making)?;
    let mut steps = vec![(number, Some(state.margin(library, plan.room)))];
    let mut copy = None;
    for (k, offer) in offers.iter().enumerate() {
        if plan.copied == Some(k) {
            copy = Some(state.clone());
        }
        steps.push(step(state, library, offer, k, plan)?);
    }
    let copied = plan.copied.unwrap_or(0);
    for (k, offer) in offers.iter().enumerate().skip(copied) {
        let Some(copy) = &mut copy else { break };
        let again = step(copy, library, offer, k, plan)?;
        if again != steps[k + 1] {
            return Err(format!("row {k} gives a copy {again:?}, not {:?}", steps[k + 1]));
        }
    }
    Ok(steps)
}

fn step(
    state: &mut State,
    library: &dyn Library,
    offer: &Offer,
    k: usize,
    plan: &Plan,
) -> Result<Step, String> {
    let number = state.row(library, offer)?;
    Ok((number, plan.asks(k).then(|| state.margin(library, plan.room))))
}
