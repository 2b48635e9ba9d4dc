//! Numbers that people write: whole, in decimal digits, in 64 bits, without a leading zero; anything else is an error in words.
use crate::names;
use std::ffi::OsStr;
use std::ops::RangeInclusive;
use std::os::unix::ffi::OsStrExt;

pub fn number(text: &OsStr) -> Result<u64, String> {
    let shown = names::printable(text.as_bytes());
    let digits = text.to_str().unwrap_or("-");
    if digits.trim().is_empty() {
        return Err("a number is due, and there is a blank".to_string());
    }
    if !digits.bytes().all(|byte| byte.is_ascii_digit()) {
        return Err(format!("`{shown}` is not a number: decimal digits and nothing else are expected"));
    }
    if digits.len() > 1 && digits.starts_with('0') {
        return Err(format!("`{shown}` is not a number: a number has no leading zero"));
    }
    digits.parse().map_err(|_| format!("`{shown}` is too large: numbers are at most {}", u64::MAX))
}

/// A number, or FIRST-LAST.
pub fn range(text: &OsStr) -> Result<RangeInclusive<u64>, String> {
    let bytes = text.as_bytes();
    let dash = bytes.iter().position(|&byte| byte == b'-').filter(|&at| 0 < at && at + 1 < bytes.len());
    let Some(at) = dash else { return number(text).map(|number| number..=number) };
    let [first, last] = [&bytes[..at], &bytes[at + 1..]].map(|end| number(OsStr::from_bytes(end)));
    match (first?, last?) {
        (first, last) if first <= last => Ok(first..=last),
        (first, last) => Err(format!("`{}` is not a range: {first} is above {last}", names::printable(bytes))),
    }
}

#[cfg(test)]
mod tests {
    use super::{number, range};
    use std::ffi::OsStr;
    use std::os::unix::ffi::OsStrExt;

    #[test]
    fn whole_or_refused() {
        let numbers = [("0", 0), ("1", 1), ("4294967297", 4_294_967_297), ("18446744073709551615", u64::MAX)];
        for (text, value) in numbers {
            assert_eq!(number(OsStr::new(text)), Ok(value));
            assert_eq!(range(OsStr::new(text)), Ok(value..=value));
        }
        for text in ["", " ", "00", "02", "-1", "+1", "1 ", " 1", "1x", "0x1", "1e3", "١", "18446744073709551616"] {
            assert!(number(OsStr::new(text)).is_err(), "{text}");
            assert!(range(OsStr::new(text)).is_err(), "{text}");
        }
        assert!(number(OsStr::from_bytes(b"1\xff")).is_err());
    }

    #[test]
    fn both_ends_of_a_range() {
        assert_eq!(range(OsStr::new("1-12230590464")), Ok(1..=12_230_590_464));
        assert_eq!(range(OsStr::new("4294967297-4294967297")), Ok(4_294_967_297..=4_294_967_297));
        for text in ["2-1", "1-", "-", "1--2", "1-2-3", "01-2", "1-02", "1 - 2", "1-18446744073709551616", "a-2", "1..2"] {
            assert!(range(OsStr::new(text)).is_err(), "{text}");
        }
        assert!(range(OsStr::from_bytes(b"1-2\xff")).is_err());
    }
}
