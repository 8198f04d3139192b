//! Damage of which nobody knows what it comes to: the answers are compared, not foretold.

use super::prng::Prng;
use super::sheets::sound;

/// A sound sheet with one to four damages.
pub fn damaged(rng: &mut Prng) -> Vec<u8> {
    let mut text = sound(rng).draft.text();
    for _ in 0..1 + rng.below(4) {
        damage(rng, &mut text);
    }
    text
}

/// Requirement text with damages, for its reader alone.
pub fn damaged_requirement(rng: &mut Prng) -> Vec<u8> {
    let mut text = sound(rng).draft.requirements.swap_remove(0);
    for _ in 0..rng.below(4) {
        damage(rng, &mut text);
    }
    text
}

fn damage(rng: &mut Prng, text: &mut Vec<u8>) {
    if text.is_empty() {
        return;
    }
    match rng.below(5) {
        0 => damage_lines(rng, text),
        1 => damage_digits(rng, text),
        2 => damage_brackets(rng, text),
        _ => damage_bytes(rng, text),
    }
}

/// A bracket exchanged for any other: mostly a window's, of which one end is then excluded or counted.
fn damage_brackets(rng: &mut Prng, text: &mut [u8]) {
    let brackets = b"[]()";
    let places: Vec<usize> =
        (0..text.len()).filter(|&place| brackets.contains(&text[place])).collect();
    if !places.is_empty() {
        text[rng.pick(&places)] = rng.pick(brackets);
    }
}

fn damage_bytes(rng: &mut Prng, text: &mut Vec<u8>) {
    let place = rng.below(text.len());
    let telling = b"0123456789-*=,. \n\r\0tfmpvscrlhGFURT!&|()[]";
    match rng.below(6) {
        0 => text[place] ^= 1 << rng.below(8),
        1 => text[place] = rng.pick(telling),
        2 => {
            text.remove(place);
        }
        3 => text.insert(place, rng.pick(telling)),
        4 => text.insert(place, text[place]),
        _ => text.truncate(place),
    }
}

/// Whole lines dropped, repeated, swapped.
fn damage_lines(rng: &mut Prng, text: &mut Vec<u8>) {
    let mut lines: Vec<Vec<u8>> =
        text.split_inclusive(|&byte| byte == b'\n').map(<[u8]>::to_vec).collect();
    let (one, other) = (rng.below(lines.len()), rng.below(lines.len()));
    match rng.below(3) {
        0 => {
            lines.remove(one);
        }
        1 => lines.insert(other, lines[one].clone()),
        _ => lines.swap(one, other),
    }
    *text = lines.concat();
}

/// A run of digits exchanged for a number at or beyond a limit.
fn damage_digits(rng: &mut Prng, text: &mut Vec<u8>) {
    let digit = |place: &usize| text[*place].is_ascii_digit();
    let starts: Vec<usize> = (0..text.len())
        .filter(|place| digit(place) && (*place == 0 || !digit(&(place - 1))))
        .collect();
    if starts.is_empty() {
        return;
    }
    let start = rng.pick(&starts);
    let end = (start..text.len()).find(|place| !digit(place)).unwrap_or(text.len());
    let numbers = [
        "0", "1", "2", "7", "8", "9", "10", "15", "16", "00", "01", "-0", "-1", "1000", "1001",
        "999999999", "1000000000", "1000000001", "-1000000000", "-1000000001", "2000000000",
        "2000000001", "2147483647", "2147483648", "-2147483647", "-2147483648", "4294967295",
        "4294967296", "9999999999", "10000000000", "00000000001", "*",
    ];
    text.splice(start..end, rng.pick(&numbers).bytes());
}
