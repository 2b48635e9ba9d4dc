//! Limits in milliseconds and a clock that drops the fraction (document 02, A9): which limits no two ticks keep, and the remark on a row
//! that has such limits.
use crate::sheet::{is_end, Kind, Row};

pub const FRACTIONS: &str = "as the clock drops fractions";

/// Where a row's points can be surely a to b ms apart, whatever the log.
#[derive(Clone, Copy, Debug, PartialEq, Eq)]
pub enum Reach {
    /// At two positions, by their ticks.
    TwoTicks,
    /// On one line alone, which is exactly 0 ms from itself.
    OneLine,
    Nowhere,
}

/// Document 02, A9: ticks that differ by d keep the limits when d < b and (a < d or a = 0).
pub fn reach(row: &Row) -> Reach {
    let lowest = if row.a == 0 { 0 } else { u64::from(row.a) + 1 };
    if lowest < u64::from(row.b) {
        return Reach::TwoTicks;
    }
    match row.a == 0 && !is_end(row.p) && !is_end(row.q) {
        true => Reach::OneLine,
        false => Reach::Nowhere,
    }
}

/// Why limits of another reach than `TwoTicks` are missed.
pub fn no_two_ticks(row: &Row) -> String {
    format!("{FRACTIONS}, no two ticks are surely {} to {} ms apart", row.a, row.b)
}

/// What a row comes to on every log, where no two ticks keep its limits.
pub fn remark(number: u32, row: &Row) -> Option<String> {
    let comes_to = match (row.kind, reach(row)) {
        (Kind::Within, Reach::OneLine) => "can be met on one line only",
        (Kind::Within, Reach::Nowhere) => "can never be met",
        (Kind::Outside, Reach::OneLine) => "is always met on two lines",
        (Kind::Outside, Reach::Nowhere) => "is always met",
        (Kind::Within | Kind::Outside, Reach::TwoTicks) => return None,
        (Kind::Point | Kind::Next | Kind::Last | Kind::Earlier | Kind::Later, _) => return None,
        (Kind::Before | Kind::Apart | Kind::Same | Kind::Free | Kind::Event, _) => return None,
    };
    Some(format!("row {number}, {}, {comes_to}: {}", row.kind.name(), no_two_ticks(row)))
}

#[cfg(test)]
mod tests {
    use super::{reach, remark, Reach};
    use crate::sheet::{Kind, Row, CLOSE, KINDS, START};

    /// Document 02, A9, word by word: d + 1 is at most b, and d - 1 (0 if d is 0) is at least a.
    fn is_kept(d: u64, a: u64, b: u64) -> bool {
        d < b && (if d == 0 { 0 } else { d - 1 }) >= a
    }

    fn within(p: u32, q: u32, a: u32, b: u32) -> Row {
        Row { section: 1, kind: Kind::Within, p, q, a, b }
    }

    #[test]
    fn reach_goes_by_every_distance() {
        let numbers: Vec<u32> = (0..=9).chain(u32::MAX - 9..=u32::MAX).collect();
        let limits = numbers.iter().flat_map(|&b| numbers.iter().map(move |&a| (a, b)));
        for (a, b) in limits.filter(|(a, b)| a <= b) {
            // 10 stands between the low numbers and the high ones.
            let on_two = numbers.iter().chain(&[10]).any(|&d| is_kept(d.into(), a.into(), b.into()));
            let otherwise = if a == 0 { Reach::OneLine } else { Reach::Nowhere };
            assert_eq!(reach(&within(1, 11, a, b)), if on_two { Reach::TwoTicks } else { otherwise }, "{a} to {b}");
            for (p, q) in [(START, 1), (11, CLOSE), (START, CLOSE), (CLOSE, START)] {
                assert_eq!(reach(&within(p, q, a, b)), if on_two { Reach::TwoTicks } else { Reach::Nowhere }, "{a} to {b}");
            }
        }
    }

    #[test]
    fn no_other_kind_has_limits() {
        for (kind, name) in KINDS {
            let row = Row { kind, ..within(1, 2, 0, 0) };
            assert_eq!(remark(3, &row).is_some(), kind == Kind::Within || kind == Kind::Outside, "{name}");
        }
    }
}
