//! Lines and their fields: "every line ends in a line feed; fields are parted by one space".
//!
//! A line is cut at its spaces first and each piece judged whole, so that nothing here resembles
//! a cursor that walks along the bytes.

use crate::limits::{LARGEST_SIGNED, LARGEST_UNSIGNED, MOST_DIGITS};
use crate::refusal::Refusal;

pub type Read<T> = Result<T, Refusal>;

/// The first line without its line feed, and what stands behind it.
pub fn first_line(text: &[u8]) -> Read<(&[u8], &[u8])> {
    let end = text.iter().position(|&byte| byte == b'\n').ok_or(Refusal::Text)?;
    Ok((&text[..end], &text[end + 1..]))
}

/// What follows the key, of a line or a field that has it.
pub fn after_key<'a>(text: &'a [u8], key: &str) -> Read<&'a [u8]> {
    text.strip_prefix(key.as_bytes()).ok_or(Refusal::Text)
}

/// The values of a line that has exactly the keys, in their order.
pub fn values<'a>(line: &'a [u8], keys: &[&str]) -> Read<Vec<&'a [u8]>> {
    let pieces: Vec<&[u8]> = line.split(|&byte| byte == b' ').collect();
    if pieces.len() != keys.len() {
        return Err(Refusal::Text);
    }
    pieces.into_iter().zip(keys).map(|(piece, key)| after_key(piece, key)).collect()
}

/// A field without sign.
pub fn unsigned(digits: &[u8]) -> Read<u64> {
    let value = decimal(digits).ok_or(Refusal::Text)?;
    if value > LARGEST_UNSIGNED {
        return Err(Refusal::Text);
    }
    Ok(value)
}

/// A field that may have `-`.
pub fn signed(text: &[u8]) -> Read<i64> {
    let (negative, digits) = match text.strip_prefix(b"-") {
        Some(digits) => (true, digits),
        None => (false, text),
    };
    let size = decimal(digits).ok_or(Refusal::Text)?;
    if size > LARGEST_SIGNED || (negative && size == 0) {
        return Err(Refusal::Text);
    }
    Ok(if negative { -(size as i64) } else { size as i64 })
}

/// An end of a range: a signed number, or `*` for a missing end.
pub fn end(text: &[u8]) -> Read<Option<i64>> {
    if text == b"*" {
        Ok(None)
    } else {
        signed(text).map(Some)
    }
}

/// "Up to ten digits, no leading zero."
fn decimal(digits: &[u8]) -> Option<u64> {
    let written = std::str::from_utf8(digits).ok()?;
    let fits = (1..=MOST_DIGITS).contains(&digits.len())
        && digits.iter().all(u8::is_ascii_digit)
        && (digits == b"0" || digits[0] != b'0');
    if fits {
        written.parse().ok()
    } else {
        None
    }
}

#[cfg(test)]
mod tests {
    use super::*;

    #[test]
    fn numbers_without_sign() {
        for (text, value) in [("0", 0), ("7", 7), ("4294967295", 4_294_967_295)] {
            assert_eq!(unsigned(text.as_bytes()), Ok(value));
        }
        for text in [
            "", "-", "-0", "-1", "+1", "00", "01", "1 ", " 1", "1\r", "4294967296", "00000000001",
            "10000000000", "*",
        ] {
            assert_eq!(unsigned(text.as_bytes()), Err(Refusal::Text), "{text:?}");
        }
    }

    #[test]
    fn numbers_with_sign() {
        for (text, value) in
            [("0", 0), ("-1", -1), ("2147483647", 2_147_483_647), ("-2147483647", -2_147_483_647)]
        {
            assert_eq!(signed(text.as_bytes()), Ok(value));
        }
        for text in
            ["", "-", "--1", "-0", "-01", "+1", "2147483648", "-2147483648", "4294967295", "*"]
        {
            assert_eq!(signed(text.as_bytes()), Err(Refusal::Text), "{text:?}");
        }
        assert_eq!(end(b"*"), Ok(None));
        assert_eq!(end(b"**"), Err(Refusal::Text));
        assert_eq!(end(b"-*"), Err(Refusal::Text));
    }
}
