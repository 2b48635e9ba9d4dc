//! Document 01: denials. How many each row gives, and the rows in which each ends; document 02, A1: with both halves of a set, and A8: of a missing
//! point with the far end that the library has written.
use crate::sheet::{is_end, Kind, Row, Sheet, CLOSE, START};

/// Which of a row's denials: some have a second.
#[derive(Clone, Copy, Debug, PartialEq, Eq)]
pub enum Choice {
    First,
    Second,
}

pub fn count(row: &Row) -> u64 {
    match row.kind {
        Kind::Point | Kind::Earlier | Kind::Later => 0,
        Kind::Next | Kind::Last | Kind::Apart | Kind::Same | Kind::Within | Kind::Outside | Kind::Event => 1,
        Kind::Before => 2,
        Kind::Free if is_end(row.p) || is_end(row.q) => 1,
        Kind::Free => 2,
    }
}

/// Document 01: 10i + 9, the point of a denial of FREE.
pub fn between_point(section: u32) -> u32 {
    10 * section + 9
}

/// How far the point of NEXT or LAST is missing, by the FREE row that denies it: to the close or from the start, or an antecedent point that is not q.
/// The others have no far end.
pub fn far_end(antiscenario: &Sheet, row: &Row, denying: &Row) -> Option<u32> {
    let (far, long) = match row.kind {
        Kind::Next => (denying.q, CLOSE),
        Kind::Last => (denying.p, START),
        _ => return Some(START),
    };
    let is_short = far != row.q && antiscenario.section(0).any(|point| point.kind == Kind::Point && point.p == far);
    (far == long || is_short).then_some(far)
}

/// The rows of a denial behind the introducing rows that it brings.
pub fn rows(row: &Row, choice: Choice, far: u32) -> Vec<Row> {
    let Row { section, p, q, a, b, .. } = *row;
    let of = |kind, p, q, a, b| vec![Row { section, kind, p, q, a, b }];
    match (row.kind, choice) {
        (Kind::Point | Kind::Earlier | Kind::Later, _) => Vec::new(),
        (Kind::Next, _) => of(Kind::Free, q, far, a, b),
        (Kind::Last, _) => of(Kind::Free, far, q, a, b),
        (Kind::Before, Choice::First) => of(Kind::Before, q, p, 0, 0),
        (Kind::Before, Choice::Second) | (Kind::Apart, _) => of(Kind::Same, p, q, 0, 0),
        (Kind::Same, _) => of(Kind::Apart, p, q, 0, 0),
        (Kind::Within, _) => of(Kind::Outside, p, q, a, b),
        (Kind::Outside, _) => of(Kind::Within, p, q, a, b),
        (Kind::Event, _) => of(Kind::Event, p, 0, u32::MAX - a, u32::MAX - b),
        (Kind::Free, choice) => free_rows(row, choice),
    }
}

fn free_rows(row: &Row, choice: Choice) -> Vec<Row> {
    let between = between_point(row.section);
    let (low, high) = match (choice, row.p == CLOSE || row.q == START) {
        // The start is the lower of its pair and the close the higher, however the row has them.
        (Choice::First, false) | (Choice::Second, true) => (row.p, row.q),
        (Choice::First, true) | (Choice::Second, false) => (row.q, row.p),
    };
    let before = |p, q| Row { section: row.section, kind: Kind::Before, p, q, a: 0, b: 0 };
    let mut rows = vec![Row { section: row.section, kind: Kind::Point, p: between, q: 0, a: row.a, b: row.b }];
    if !is_end(low) {
        rows.push(before(low, between));
    }
    if !is_end(high) {
        rows.push(before(between, high));
    }
    rows
}
