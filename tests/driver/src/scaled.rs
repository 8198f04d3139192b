//! A sheet's `c=` lines and a card's scales, looked at from outside: counted, so that a run fails
//! in which one of their faults, or a scale that tells, came up too seldom.

use peer::answer::Answer;
use peer::between::Claim;
use peer::predicate::Range;
use peer::sheet::read_sheet;
use peer::tree::{Atom, Tree};

const MISSING: &str = "one missing";
const TOO_MANY: &str = "one too many";
const NONE_DUE: &str = "none is due";
const OTHERS: &str = "other channels";

/// What a sheet's `c=` lines may be about, where it is refused for them alone.
pub const ALL: [&str; 4] = [MISSING, TOO_MANY, NONE_DUE, OTHERS];

/// What is wrong with this sheet's `c=` lines, where nothing else is wrong with its text.
pub fn about(text: &[u8]) -> Option<&'static str> {
    let lines: Vec<&[u8]> = text.split_inclusive(|&byte| byte == b'\n').collect();
    let channels = number(lines.first()?, b"chan=")?;
    let count = lines.iter().skip(1).take_while(|line| line.starts_with(b"c=")).count();
    let (own, others) = lines[1..].split_at(count);
    let numbers: Vec<u64> = own.iter().map(|line| number(line, b"c=")).collect::<Option<_>>()?;
    if read_sheet(text).is_ok() {
        return None;
    }
    // The sheet would be accepted if each channel had its line, and they were in order.
    let due = if (1..=8).contains(&channels) { channels } else { 0 };
    let right: String = (0..due).map(|channel| format!("c={channel} scale=1\n")).collect();
    read_sheet(&[lines[0], right.as_bytes(), &others.concat()].concat()).ok()?;
    match numbers.len() as u64 {
        _ if due == 0 => Some(NONE_DUE),
        count if count < due => Some(MISSING),
        count if count > due => Some(TOO_MANY),
        _ => (0..due).ne(numbers).then_some(OTHERS),
    }
}

/// What stands behind the key, up to the space or the line's end.
fn number(line: &[u8], key: &[u8]) -> Option<u64> {
    let value = line.strip_prefix(key)?.split(|byte| b" \n".contains(byte)).next()?;
    std::str::from_utf8(value).ok()?.parse().ok()
}

/// Whether the card's channels have unequal scales.
pub fn unequal(accepted: &Answer) -> bool {
    accepted.recording.scales.windows(2).any(|pair| pair[0] != pair[1])
}

/// Whether the claim reads, by an end, a channel whose scale is above 1.
pub fn on_scaled(claim: &Claim, accepted: &Answer) -> bool {
    reads_scaled(&claim.tree, accepted)
}

fn reads_scaled(tree: &Tree, accepted: &Answer) -> bool {
    let reads = |tree: &Tree| reads_scaled(tree, accepted);
    match tree {
        Tree::Atom(Atom::True) => false,
        Tree::Atom(Atom::Predicate(number)) => {
            let predicate = accepted.predicates[*number];
            predicate.range != Range::Free && accepted.recording.scale(predicate.channel) > 1
        }
        Tree::Not(left) | Tree::Eventually(_, left) | Tree::Always(_, left) => reads(left),
        Tree::And(left, right)
        | Tree::Or(left, right)
        | Tree::Until(left, _, right)
        | Tree::Release(left, _, right) => reads(left) || reads(right),
    }
}

#[cfg(test)]
mod tests {
    use super::*;

    fn of(channels: u64, lines: &str) -> Option<&'static str> {
        about(format!("chan={channels}\n{lines}step=1\ndrift=0\nreq=T\n").as_bytes())
    }

    #[test]
    fn faults_of_c_lines_are_told_apart() {
        let (zero, one) = ("c=0 scale=1\n", "c=1 scale=2\n");
        let both = format!("{zero}{one}");
        assert_eq!(of(2, &both), None);
        assert_eq!(of(2, zero), Some(MISSING));
        assert_eq!(of(2, ""), Some(MISSING));
        assert_eq!(of(1, &both), Some(TOO_MANY));
        assert_eq!(of(1, &format!("{zero}{zero}")), Some(TOO_MANY));
        assert_eq!(of(9, zero), Some(NONE_DUE));
        assert_eq!(of(0, ""), None);
        assert_eq!(of(2, &format!("{one}{zero}")), Some(OTHERS));
        assert_eq!(of(2, &format!("{zero}{zero}")), Some(OTHERS));
        // Another fault than the lines' count and numbers.
        assert_eq!(of(1, "c=0 scale=01\n"), None);
        assert_eq!(of(1, "p=0\n"), None);
    }
}
