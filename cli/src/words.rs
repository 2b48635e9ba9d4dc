//! Points, lines and rows in words.
use crate::events::Events;
use crate::sheet::{Kind, Row, CLOSE, START};

pub fn point(point: u32) -> String {
    match point {
        START => "the start".to_string(),
        CLOSE => "the close".to_string(),
        _ => format!("point {point}"),
    }
}

pub fn line(position: u32) -> String {
    format!("line {position} of the log, line {} of the file", file_line(position))
}

/// Where a line of a log, or a row of a sheet, stands in its file: behind the first line.
pub fn file_line(number: u32) -> u64 {
    u64::from(number) + 1
}

/// What a row asks.
pub fn asks(row: &Row, events: &Events) -> String {
    let (p, q, a, b) = (point(row.p), point(row.q), row.a, row.b);
    match row.kind {
        Kind::Point | Kind::Event => format!("{p} has {}", events.set(row.set())),
        Kind::Next => format!("{p} is the next line after {q} with {}", events.set(row.set())),
        Kind::Last => format!("{p} is the last line before {q} with {}", events.set(row.set())),
        Kind::Earlier => format!("{p} is the earlier of {q} and {}", point(a)),
        Kind::Later => format!("{p} is the later of {q} and {}", point(a)),
        Kind::Before => format!("{p} stands before {q}"),
        Kind::Apart => format!("{p} and {q} are different lines"),
        Kind::Same => format!("{p} and {q} are the same line"),
        Kind::Free => format!("{} between {p} and {q}", events.free_of(row.set())),
        Kind::Within => format!("{p} and {q} are surely {a} to {b} ms apart"),
        Kind::Outside => format!("{p} and {q} are not surely {a} to {b} ms apart"),
    }
}

/// A count with its noun, in the plural but for one.
pub fn count(count: impl Into<u64>, noun: &str) -> String {
    match count.into() {
        1 => format!("1 {noun}"),
        count => format!("{count} {noun}s"),
    }
}

/// A number whose digits stand in threes, with commas between them.
pub fn grouped(number: u64) -> String {
    let digits = number.to_string();
    let groups: Vec<&[u8]> = digits.as_bytes().rchunks(3).rev().collect();
    String::from_utf8_lossy(&groups.join(&b',')).into_owned()
}

#[cfg(test)]
mod tests {
    use super::grouped;

    #[test]
    fn digits_in_threes() {
        let numbers = [(0, "0"), (7, "7"), (999, "999"), (1000, "1,000"), (12_345, "12,345"), (123_456, "123,456")];
        for (number, due) in numbers {
            assert_eq!(grouped(number), due);
        }
        assert_eq!(grouped(1_000_007), "1,000,007");
        assert_eq!(grouped(256_000_000_000_000), "256,000,000,000,000");
        assert_eq!(grouped(u64::MAX), "18,446,744,073,709,551,615");
    }
}
