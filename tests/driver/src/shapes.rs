//! Which windows a call reads, by operator, start and end: counted from the numbers themselves, so
//! that a shape that no longer comes up is seen.

use crate::marked::{self, form};
use peer::generate::calls::Call;
use peer::generate::windows::{Shaped, SPACINGS, VALUES};
use peer::table::{kind, Node};
use peer::window::Window;

pub const LETTERS: [char; 4] = ['U', 'R', 'F', 'G'];
const STARTS: [&str; 4] = ["now", "within a step", "late", "past the recording"];
const ENDS: [&str; 4] = ["no end", "one instant", "an end inside", "an end past the recording"];
const EMPTY: &str = "emptied";
/// A low end of 0 that is excluded: no window from now.
const FROM_OPEN_0: &str = "from 0 without 0";

/// Everything that is to be counted. What contraction leaves is counted by itself.
pub fn all() -> Vec<String> {
    let mut all = marked::all();
    all.extend(marked::all().iter().map(|form| format!("strengthened {form}")));
    for letter in LETTERS {
        for start in STARTS {
            all.extend(ends(start).map(|end| format!("{letter} {start}, {end}")));
            // A low end above 0 comes to lie past the step.
            if contracts(letter) && start != STARTS[1] {
                let left = ends(start).chain([EMPTY]);
                all.extend(left.map(|end| format!("contracted {letter} {start}, {end}")));
            }
        }
        all.extend(contracts(letter).then(|| format!("contracted {letter} {FROM_OPEN_0}")));
        all.extend(VALUES.map(|values| format!("{letter} over {}", values.name())));
        all.extend(SPACINGS.map(|spacing| format!("{letter} over {}", spacing.name())));
    }
    all
}

/// A window that starts past the recording does not end inside.
fn ends(start: &str) -> impl Iterator<Item = &'static str> {
    let past = start == STARTS[3];
    ENDS.into_iter().filter(move |end| !past || *end != ENDS[2])
}

/// What a call's margin reads, and its verdict where that is not refused.
pub fn read_by(shaped: &Shaped) -> Vec<String> {
    let call = &shaped.foretold.call;
    let mut read = Vec::new();
    for (letter, node) in call.table.nodes.iter().filter_map(|node| Some((letter(node)?, node))) {
        let window = node.window();
        read.push(described(letter, window, call));
        read.push(format!("{letter} {}", form(window)));
        if shaped.foretold.verdict == 0 {
            let both = [letter, dual(letter)];
            read.extend(both.iter().flat_map(|letter| strengthened(*letter, window, call)));
        }
        read.push(format!("{letter} over {}", shaped.values.name()));
        read.push(format!("{letter} over {}", shaped.spacing.name()));
    }
    read
}

/// Of a temporal operator.
pub fn letter(node: &Node) -> Option<char> {
    let place = node.kind.checked_sub(kind::UNTIL)?;
    LETTERS.get(place as usize).copied()
}

fn dual(letter: char) -> char {
    match letter {
        'U' => 'R',
        'R' => 'U',
        'F' => 'G',
        _ => 'F',
    }
}

/// Until and eventually contract, release and always expand.
fn contracts(letter: char) -> bool {
    matches!(letter, 'U' | 'F')
}

/// What strengthening makes of an operator's window.
fn strengthened(letter: char, window: Window, call: &Call) -> Vec<String> {
    let step = call.step as i64;
    let mut read = vec![format!("strengthened {letter} {}", form(window))];
    if contracts(letter) {
        read.push(format!("contracted {}", described(letter, window.contracted(step), call)));
        let open_0 = window.open_lo && window.lo == 0;
        read.extend(open_0.then(|| format!("contracted {letter} {FROM_OPEN_0}")));
    } else {
        read.push(described(letter, window.expanded(step), call));
    }
    read
}

fn described(letter: char, window: Window, call: &Call) -> String {
    let window = window.as_read();
    let times = &call.recording.times;
    let (step, span) = (call.step as i64, (times[times.len() - 1] - times[0]) as i64);
    let start = match window.lo {
        0 => STARTS[0],
        lo if lo <= step => STARTS[1],
        lo if lo <= span => STARTS[2],
        _ => STARTS[3],
    };
    let end = match window.hi {
        None => ENDS[0],
        Some(hi) if hi < window.lo => EMPTY,
        Some(hi) if hi == window.lo => ENDS[1],
        Some(hi) if hi <= span => ENDS[2],
        Some(_) => ENDS[3],
    };
    format!("{letter} {start}, {end}")
}

#[cfg(test)]
mod tests {
    use super::*;
    use peer::generate::windows::{long, LONG_CASES};

    /// A long run takes minutes; that its calls have every shape is seen here at once.
    #[test]
    fn the_long_calls_have_every_shape() {
        for run in 0..3 {
            let calls = (run * LONG_CASES..(run + 1) * LONG_CASES).map(long);
            let read: Vec<String> = calls.flat_map(|shaped| read_by(&shaped)).collect();
            for shape in all() {
                assert!(read.contains(&shape), "{shape}");
            }
        }
    }
}
