//! Document 02, A11: sheets of several consequents in which it shows what is renumbered and what stays: every row's points, and sets and limits that are
//! numbers of points. Families over a list of alternatives, and at random; and logs for both.
use super::families::Family;
use super::logs::log_of;
use super::sheets::{self, sheet_of, Shape};
use crate::random::Random;
use crate::reference::log::{Line, Log};
use crate::reference::sheet::{self, kind::*, Row, CLOSE, START};

/// Two to six consequents of a few rows.
const SEVERAL: Shape = Shape { fewest_consequents: 2, consequents: 6, ..sheets::SMALL };

/// A rule of two alternatives, in either order: a correction (event 2) soon before a scan (3) and no injection (1) between them, which is S, or one at
/// most 20 ms after it.
pub fn in_either_order() -> [Vec<u8>; 2] {
    let before = |i: u32| {
        let p = 10 * i + 1;
        vec![[i, LAST, p, 1, 4, 0], [i, WITHIN, p, 1, 0, 500], [i, FREE, p, 1, 2, 0]]
    };
    let after = |i: u32| vec![[i, NEXT, 10 * i + 1, 1, 4, 0], [i, WITHIN, 1, 10 * i + 1, 0, 21]];
    let scan = vec![[0, POINT, 1, 0, 8, 0]];
    [[scan.clone(), before(1), after(2)], [scan, after(1), before(2)]].map(|sections| sheet_of(2, &sections.concat()))
}

/// What is asked in consequent i, one way or another. Sets and limits are 11, 19, 21, 29, 31 and 39, whatever i is.
fn alternatives(i: u32) -> [Vec<Row>; 8] {
    let (first, second) = (10 * i + 1, 10 * i + 2);
    let row = |kind, p, q, a, b| Row::new(i, kind, p, q, a, b);
    [
        vec![],
        vec![row(EVENT, 1, 0, 21, 0), row(EVENT, 1, 0, 21, 0), row(EVENT, 2, 0, 31, 11)],
        vec![
            row(LATER, first, 1, 2, 0),
            row(EARLIER, second, 2, first, 0),
            row(SAME, second, 1, 0, 0),
            row(EVENT, first, 0, 11, 0),
        ],
        vec![row(FREE, 1, 2, 11, 0), row(FREE, 2, CLOSE, 21, 0), row(FREE, START, 1, 39, 0)],
        vec![row(NEXT, first, 1, 19, 0), row(BEFORE, first, 2, 0, 0)],
        vec![row(LAST, first, 2, 29, 21), row(BEFORE, 1, first, 0, 0), row(WITHIN, first, 2, 11, 21)],
        vec![row(OUTSIDE, 1, 2, 19, 29), row(WITHIN, START, 1, 0, 31)],
        vec![
            row(NEXT, first, START, 31, 0),
            row(LAST, second, CLOSE, 21, 0),
            row(APART, first, second, 0, 0),
            row(WITHIN, 2, second, 0, 21),
        ],
    ]
}

/// Each of these sheets with each alternative for its next consequent.
fn one_more(sheets: &[Vec<Row>], section: u32) -> Vec<Vec<Row>> {
    let further = alternatives(section);
    sheets.iter().flat_map(|rows| further.iter().map(move |more| [&rows[..], more].concat())).collect()
}

/// Two points in order, so that a missing point's denial may be short, or in none; with two consequents and with three.
pub fn alternative_families() -> [Family; 2] {
    let points = vec![Row::new(0, POINT, 1, 0, 22, 0), Row::new(0, POINT, 2, 0, 14, 0)];
    let in_order = [&points[..], &[Row::new(0, BEFORE, 1, 2, 0, 0)]].concat();
    let two = one_more(&one_more(&[in_order, points], 1), 2);
    let three = one_more(&two, 3);
    [Family::new("two alternatives", 2, &two), Family::new("three alternatives", 3, &three)]
}

/// None, one and several lines, at distances next to those limits.
pub fn alternative_logs() -> Vec<Log> {
    let lines: [&[(u32, u32)]; 7] = [
        &[],
        &[(5, 1)],
        &[(0, 1), (15, 2)],
        &[(0, 1), (12, 0), (25, 2)],
        &[(0, 2), (20, 3), (20, 1), (40, 2)],
        &[(3, 4), (3, 2), (3, 3)],
        &[(30, 4), (41, 1), (52, 2), (71, 0)],
    ];
    lines.map(log_of).into()
}

/// The number of some point that a consequent has, or a denial of it.
fn point_of(random: &mut Random, section: u32) -> u32 {
    10 * section + random.from_to(1, 9)
}

/// The row, mostly with a point's number of its section for a set or a limit.
fn with_point_number(random: &mut Random, row: Row) -> Row {
    if row.section == 0 || random.one_in(4) {
        return row;
    }
    let number = point_of(random, row.section);
    match row.kind {
        NEXT | LAST | FREE | EVENT => Row { a: number, b: if random.one_in(4) { row.b } else { 0 }, ..row },
        WITHIN | OUTSIDE if random.one_in(2) => Row { a: number, b: number + random.from_to(0, 30), ..row },
        WITHIN | OUTSIDE => Row { a: random.from_to(0, 9), b: number, ..row },
        _ => row,
    }
}

/// A random sheet, which is accepted.
pub fn random_sheet(random: &mut Random) -> Vec<u8> {
    let (k, rows) = sheets::random_rows(random, &SEVERAL);
    sheet::text(k, &rows.into_iter().map(|row| with_point_number(random, row)).collect::<Vec<_>>())
}

/// A random log of up to so many lines, with events of such sets and at such distances.
pub fn random_log(random: &mut Random, most: u32) -> Log {
    let mut log = log_of(&[]);
    for _ in 0..random.from_to(0, most) {
        log.close += random.pick(&[0, 1, 10, 11, 12, 20, 30]);
        log.lines.push(Line { tick: log.close, event: random.from_to(0, 3) });
    }
    log
}
