//! The order of a sheet's `p=` lines, looked at from outside: as the lines' own numbers.

use peer::sheet::read_sheet;

const GAPS: &str = "with gaps";
const FALLING: &str = "falling";
const SIDE_BY_SIDE: &str = "equal neighbours";
const APART: &str = "equal, others between";

/// What the order of a sheet's `p=` lines may be about.
pub const ALL: [&str; 4] = [GAPS, FALLING, SIDE_BY_SIDE, APART];

/// What the order of this sheet's `p=` lines is about: of an accepted sheet whether it has gaps, of
/// another one what of its order alone is wrong.
pub fn about(text: &[u8]) -> Option<&'static str> {
    let lines: Vec<&[u8]> = text.split_inclusive(|&byte| byte == b'\n').collect();
    // Behind `chan=` and the `c=` lines.
    let scales = lines.iter().skip(1).take_while(|line| line.starts_with(b"c=")).count();
    let (first, behind) = lines.split_at_checked(1 + scales)?;
    let count = behind.iter().take_while(|line| line.starts_with(b"p=")).count();
    let (predicates, others) = behind.split_at(count);
    let numbers: Vec<u64> = predicates.iter().map(|line| number(line)).collect::<Option<_>>()?;
    if read_sheet(text).is_ok() {
        return numbers.windows(2).any(|pair| pair[0] + 1 != pair[1]).then_some(GAPS);
    }
    // The sheet would be accepted if each number had one line, the first, and they were in order.
    let mut kept: Vec<&[u8]> = predicates.to_vec();
    kept.sort_by_key(|line| number(line));
    kept.dedup_by_key(|line| number(line));
    read_sheet(&[first, &kept, others].concat().concat()).ok()?;
    if numbers.windows(2).any(|pair| pair[0] == pair[1]) {
        return Some(SIDE_BY_SIDE);
    }
    Some(if kept.len() < count { APART } else { FALLING })
}

/// What stands behind `p=`, up to the space.
fn number(line: &[u8]) -> Option<u64> {
    let value = line.strip_prefix(b"p=")?.split(|&byte| byte == b' ').next()?;
    std::str::from_utf8(value).ok()?.parse().ok()
}

#[cfg(test)]
mod tests {
    use super::*;

    fn of(numbers: &[u64]) -> Option<&'static str> {
        let lines: String =
            numbers.iter().map(|number| format!("p={number} ch=0 lo=* hi=*\n")).collect();
        about(format!("chan=1\nc=0 scale=1\n{lines}step=1\ndrift=0\nreq=T\n").as_bytes())
    }

    #[test]
    fn orders_are_told_apart() {
        assert_eq!(of(&[]), None);
        assert_eq!(of(&[3, 4, 5]), None);
        assert_eq!(of(&[3, 5]), Some(GAPS));
        assert_eq!(of(&[5, 3]), Some(FALLING));
        assert_eq!(of(&[3, 3, 5]), Some(SIDE_BY_SIDE));
        assert_eq!(of(&[3, 5, 3]), Some(APART));
        // Another line is broken too.
        let front = "chan=1\nc=0 scale=1\np=1 ch=0 lo=* hi=*\np=0 ch=0 lo=* hi=*\n";
        assert_eq!(about(format!("{front}step=\n").as_bytes()), None);
    }
}
