//! Sheets with many requirements: at the limits of their count, some of them refused, some with
//! equal margins, and with every kind of end behind the last `req=` line.

use super::draft::{joined, Draft};
use super::faults::{bad_requirement, naming, sixty_four_nodes, some, too_many_cells};
use super::faults::{unended, Numbers};
use super::prng::Prng;
use super::scales::BAD_IN_A_SHEET;
use super::sheets::sound_of;
use crate::limits::MOST_REQUIREMENTS;

/// A sheet and the numbers that it must be refused by.
pub fn several(rng: &mut Prng) -> (Vec<u8>, Numbers) {
    let count = match rng.below(8) {
        0 => MOST_REQUIREMENTS,
        1 => MOST_REQUIREMENTS + 1,
        2 => MOST_REQUIREMENTS + 2 + rng.below(3),
        _ => 1 + rng.below(6),
    };
    let mut draft = sound_of(rng, count).draft;
    let numbers = spoilt(rng, &mut draft);
    let (text, numbers) = ended(rng, draft, numbers);
    // 12 comes after 1 and before what each requirement alone would get.
    let too_many = count > MOST_REQUIREMENTS;
    (text, numbers.and_then(|numbers| if too_many { Err(12) } else { Ok(numbers) }))
}

/// Puts a fault of its own into some of the requirements, half the time. Gives their numbers.
fn spoilt(rng: &mut Prng, draft: &mut Draft) -> Vec<u64> {
    let mut numbers = vec![0; draft.requirements.len()];
    if rng.once_in(2) {
        return numbers;
    }
    let unset = (0..16).find(|&number| !draft.is_set(number));
    let large = rng.once_in(4);
    if large {
        too_many_cells(rng, draft);
    }
    for k in some(rng, numbers.len()) {
        let number = rng.pick(&[0, 2, 3, 8]);
        draft.requirements[k] = match (number, unset) {
            (2, _) => bad_requirement(rng),
            (3, Some(unset)) => naming(rng, unset),
            (8, _) if large => sixty_four_nodes(),
            _ => continue,
        };
        numbers[k] = number;
    }
    numbers
}

/// The sheet's text, whole, or with another end than its rows.
fn ended(rng: &mut Prng, mut draft: Draft, mut numbers: Vec<u64>) -> (Vec<u8>, Numbers) {
    let unread = rng.once_in(5);
    if unread {
        draft.break_channels(rng.pick(&[0, 9, 4_294_967_295]));
        // 4 comes after 2 and 3, and before 8.
        numbers.iter_mut().filter(|number| [0, 8].contains(number)).for_each(|number| *number = 4);
    }
    match rng.below(12) {
        0 => (unended(&draft), Err(1)),
        1 => (Draft { requirements: Vec::new(), ..draft }.text(), Err(1)),
        2 | 3 if !unread => {
            let bad = ["\n", "t=9\n", "junk\n", "x", "req", "req=", "req=T\n", "step=1\n", "\0"];
            (behind(draft.text(), rng.pick(&bad)), Err(1))
        }
        _ if unread => {
            let front = joined(&draft.lines()[..draft.lines_before_rows()]);
            let junk = [
                "", "\n", "junk", "re", "req", "req:T\n", "Req=T\n", " req=T\n", "x\nreq=T\n",
                "\nreq=T", "t=0 src=m\n", "chan=1\n", "\r\n", "\0",
            ];
            (behind(front, rng.pick(&junk)), Ok(numbers))
        }
        // The same number for every requirement that has none before it.
        4 => {
            draft.step = 0;
            numbers.iter_mut().filter(|number| **number == 0).for_each(|number| *number = 9);
            (draft.text(), Ok(numbers))
        }
        5 => {
            // 13 comes after 2 and 3, and before 8.
            draft.scales[0] = rng.pick(&BAD_IN_A_SHEET);
            let later = numbers.iter_mut().filter(|number| [0, 8].contains(number));
            later.for_each(|number| *number = 13);
            (draft.text(), Ok(numbers))
        }
        _ => (draft.text(), Ok(numbers)),
    }
}

fn behind(mut text: Vec<u8>, bytes: &str) -> Vec<u8> {
    text.extend(bytes.bytes());
    text
}
