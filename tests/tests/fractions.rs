//! Document 02, A9: whole milliseconds. WITHIN is met exactly when no fraction that the clock dropped can undo it, through the C interface.
mod common;
use common::answers::{found, judged, pair, verdict};
use common::program::{KEPT, SHEET};
use common::{tell, top};
use satskhubo_tests::compare::{Comparison, Mismatch};
use satskhubo_tests::generate::logs::{self, log_of};
use satskhubo_tests::generate::pairs::pair_of;
use satskhubo_tests::generate::sheets::{limits_at, sheet_s};
use satskhubo_tests::generate::Pair;
use satskhubo_tests::host::Host;
use satskhubo_tests::outcome::Table;
use satskhubo_tests::random::Random;
use satskhubo_tests::reference::blunder::Blunder;
use satskhubo_tests::reference::log::Log;
use satskhubo_tests::reference::operations::open;
use satskhubo_tests::reference::rows::{positions_of, Placement};
use satskhubo_tests::reference::sheet::{self, kind::*, Row, Sheet, CLOSE, START};
use std::fs;
use std::io::Write;

const TOP: u32 = 4_294_967_295;

/// Times are counted in tenths of a millisecond, of which the clock keeps the whole ones.
const TENTHS: u64 = 10;

/// The times that the clock cuts to a position's tick.
fn times(log: &Log, position: u32) -> std::ops::Range<u64> {
    let whole = TENTHS * u64::from(log.tick(position));
    whole..whole + TENTHS
}

/// Whatever the times of the two positions were, they keep the limits; one position has one time.
fn surely_within(log: &Log, [x, y]: [u32; 2], (a, b): (u32, u32)) -> bool {
    let limits = TENTHS * u64::from(a)..=TENTHS * u64::from(b);
    let both = times(log, x).flat_map(|first| times(log, y).map(move |second| (first, second)));
    both.filter(|(first, second)| x != y || first == second).all(|(first, second)| limits.contains(&first.abs_diff(second)))
}

/// Where A9 changed the answers of WITHIN and OUTSIDE, and nowhere else: on two positions whose distance is b, or is a; an a of 0 cannot be undone.
fn is_moved(log: &Log, [x, y]: [u32; 2], (a, b): (u32, u32)) -> bool {
    let d = log.distance(x, y);
    x != y && (d == b || d == a && a > 0)
}

/// Two points and the positions where they stand, on a log in which these are so far apart.
struct Place {
    points: [u32; 2],
    positions: [u32; 2],
    log: fn(u32) -> Log,
}

/// One line, two lines, the start and a line, a line and the close, the start and the close around a line, and without lines.
const PLACES: [Place; 6] = [
    Place { points: [1, 2], positions: [1, 1], log: |_| log_of(&[(5, 1)]) },
    Place { points: [1, 2], positions: [1, 2], log: |d| log_of(&[(0, 1), (d, 2)]) },
    Place { points: [START, 1], positions: [0, 1], log: |d| log_of(&[(d, 1)]) },
    Place { points: [1, CLOSE], positions: [1, 2], log: |d| Log { close: d, ..log_of(&[(0, 1)]) } },
    Place { points: [START, CLOSE], positions: [0, 2], log: |d| Log { close: d, ..log_of(&[(0, 1)]) } },
    Place { points: [START, CLOSE], positions: [0, 1], log: |d| Log { close: d, ..log_of(&[]) } },
];

impl Place {
    /// The ordinary points, each with its position.
    fn ordinary(&self) -> impl Iterator<Item = (u32, u32)> + '_ {
        self.points.into_iter().zip(self.positions).filter(|(point, _)| ![START, CLOSE].contains(point))
    }

    /// A sheet that introduces them there, and ends with a row of this section.
    fn sheet(&self, log: &Log, row: Row) -> Vec<u8> {
        let event = |position: u32| log.lines[position as usize - 1].event;
        let points = self.ordinary().map(|(point, position)| Row::of_set(0, POINT, point, 0, 1 << event(position)));
        sheet::text(row.section, &points.chain([row]).collect::<Vec<_>>())
    }

    /// A row that is met makes an antecedent match and a consequent hold, and its denial match nowhere; and the other way about.
    fn answers(&self, log: &Log, row: Row, is_met: bool) {
        let pair = Pair { sheet: self.sheet(log, row), log: log.text() };
        let at: Vec<u32> = self.ordinary().map(|(_, position)| position).collect();
        let is_violated = is_met == (row.section == 0);
        let at_fault = if row.section == 0 { vec![] } else { vec![at.len() as u32 + 1] };
        assert_eq!(verdict(&pair), is_violated.then_some((at.clone(), at_fault)), "{row:?} {log:?}");
        assert_eq!(found(&pair, 1), is_violated.then_some(at), "{row:?} {log:?}");
    }
}

/// Both kinds, in antecedent and consequent, with the points in either order; whether the limits are surely kept.
fn every_row(place: &Place, d: u32, limits: (u32, u32)) -> bool {
    let log = (place.log)(d);
    let is_within = surely_within(&log, place.positions, limits);
    let [p, q] = place.points;
    for (section, p, q) in [(0, p, q), (0, q, p), (1, p, q), (1, q, p)] {
        for (kind, is_met) in [(WITHIN, is_within), (OUTSIDE, !is_within)] {
            place.answers(&log, Row::new(section, kind, p, q, limits.0, limits.1), is_met);
        }
    }
    is_within
}

/// Eight rows, each with a check and a search.
const ANSWERS: u64 = 16;

/// Every place at every distance that it can have, with every two limits in order.
fn every_case(name: &str, distances: &[u32], limits: &[u32]) {
    let (mut cases, mut within) = (0, 0);
    let in_order = limits.iter().flat_map(|&a| limits.iter().map(move |&b| (a, b))).filter(|(a, b)| a <= b);
    for place in &PLACES {
        let is_one = place.positions[0] == place.positions[1];
        for &d in if is_one { &[0] } else { distances } {
            for limits in in_order.clone() {
                cases += 1;
                within += u64::from(every_row(place, d, limits));
            }
        }
    }
    assert!(within > cases / 10 && within < cases / 2, "{within} of {cases}");
    tell(&format!("fractions: {name}, {within} of {cases} cases surely within the limits"), ANSWERS * cases);
}

#[test]
fn short_distances() {
    every_case("short distances", &[0, 1, 2, 3, 4, 5], &[0, 1, 2, 3, 4, 5, 6]);
}

/// d + 1 is more than 32 bits can hold.
#[test]
fn the_longest_distances() {
    every_case("the longest distances", &[TOP - 3, TOP - 2, TOP - 1, TOP], &[0, 1, TOP - 4, TOP - 3, TOP - 2, TOP - 1, TOP]);
}

#[test]
fn the_example_of_document_02() {
    let s = sheet_s();
    let ending_at = |tick| pair(&s, &[(100, 2), (300, 3), (tick, 3)]);
    assert_eq!((verdict(&ending_at(599)), found(&ending_at(599), 2)), (None, None));
    for tick in [600, 601] {
        let broken = ending_at(tick);
        assert_eq!((verdict(&broken), found(&broken, 2)), (Some((vec![3], vec![3])), Some(vec![3, 1])));
        assert!(judged(&broken, 2, &[3, 1]) && !judged(&broken, 2, &[2, 1]));
    }
    let file = |name: &str| fs::read(top().join(name)).unwrap();
    let on = |log: &str| verdict(&Pair { sheet: file(SHEET), log: file(log) });
    assert_eq!((on(KEPT), on("examples/lockmass/log-fraction")), (None, Some((vec![3], vec![3]))));
}

/// Without lines, too, start and close are two positions: 0 to 0 is not surely kept, 0 to 1 is, and the widest limits are not at the longest distance.
#[test]
fn start_and_close_without_lines() {
    let is_met = |kind, a, b, close| {
        let sheet = sheet::text(0, &[Row::new(0, kind, START, CLOSE, a, b)]);
        verdict(&Pair { sheet, log: Log { close, ..log_of(&[]) }.text() }) == Some((vec![], vec![]))
    };
    for (a, b, close, is_within) in
        [(0, 0, 0, false), (0, 1, 0, true), (0, TOP, TOP, false), (0, TOP, TOP - 1, true), (TOP, TOP, TOP, false)]
    {
        assert_eq!((is_met(WITHIN, a, b, close), is_met(OUTSIDE, a, b, close)), (is_within, !is_within), "{a} {b} {close}");
    }
}

/// A row over two of the start, the close and two points that may stand anywhere, judged with the points at these positions: what it is now, and what
/// it was.
fn judged_at(log: &Log, row: Row, positions: [u32; 2]) -> (bool, bool) {
    let [first, second] = [1, 2].map(|point| Row::of_set(0, POINT, point, 0, u64::MAX));
    let pair = Pair { sheet: sheet::text(0, &[first, second, row]), log: log.text() };
    let before = open(&pair.sheet, &pair.log, Blunder::BeforeA9).judged(1, &Table::of(&positions, 0));
    (judged(&pair, 1, &positions), before.met == 1)
}

/// Of one row: the truth, OUTSIDE as its opposite, and a change exactly where A9 makes one. How many answers were given, and how many are others.
fn every_placement(log: &Log, [p, q]: [u32; 2], limits: (u32, u32)) -> (u64, u64) {
    let (mut answers, mut moved) = (0, 0);
    for (x, y) in (1..=log.n()).flat_map(|x| (1..=log.n()).map(move |y| (x, y))) {
        let placement = Placement::of(log, &[1, 2], &[x, y]);
        let at = [p, q].map(|point| placement.position(point));
        let is_within = surely_within(log, at, limits);
        for (kind, is_met) in [(WITHIN, is_within), (OUTSIDE, !is_within)] {
            let row = Row::new(0, kind, p, q, limits.0, limits.1);
            let (now, before) = judged_at(log, row, [x, y]);
            assert_eq!((now, now != before), (is_met, is_moved(log, at, limits)), "{row:?} at {at:?} on {log:?}");
            (answers, moved) = (answers + 2, moved + u64::from(now != before));
        }
    }
    (answers, moved)
}

#[test]
fn rows_move_at_a_limit_and_nowhere_else() {
    let mut random = Random::new(91);
    let (mut answers, mut moved) = (0, 0);
    for _ in 0..1500 {
        let log = logs::random(&mut random, 4);
        let limits = limits_at(&mut random, &log);
        for points in [[1, 2], [START, 1], [2, CLOSE], [START, CLOSE]] {
            let (more, others) = every_placement(&log, points, limits);
            (answers, moved) = (answers + more, moved + others);
        }
    }
    assert!(moved > answers / 50 && moved < answers / 2, "{moved} of {answers}");
    tell(&format!("fractions: rows, {moved} answers moved"), answers);
}

/// Some row of WITHIN or OUTSIDE is moved at some positions where its points may stand.
fn has_a_moved_row(sheet: &Sheet, log: &Log) -> bool {
    let is_moved_somewhere = |row: &Row| {
        let mut pairs = positions_of(row.p, log).flat_map(|x| positions_of(row.q, log).map(move |y| [x, y]));
        pairs.any(|at| is_moved(log, at, (row.a, row.b)))
    };
    sheet.rows.iter().filter(|row| [WITHIN, OUTSIDE].contains(&row.kind)).any(is_moved_somewhere)
}

/// The pair, with document 01 as it was before A9 to be compared with.
fn with_before(pair: &Pair, seed: u64) -> Comparison<'_, Host> {
    let mut comparison = Comparison::new(&Host, pair, seed);
    comparison.opened = open(&pair.sheet, &pair.log, Blunder::BeforeA9);
    comparison
}

/// Readings and texts have not moved at all.
fn reads_and_writes_as_before(pair: &Pair, seed: u64) -> Result<u64, Mismatch> {
    let mut comparison = with_before(pair, seed);
    comparison.readings()?;
    comparison.numbers(6).into_iter().try_for_each(|number| comparison.writing(number))?;
    Ok(comparison.comparisons)
}

/// Every answer is as it was, unless a row is moved; then it may be another.
#[test]
fn answers_are_as_before_unless_a_row_is_moved() {
    const PAIRS: u64 = 4000;
    let (mut comparisons, mut without, mut as_before, mut others) = (0, 0, 0, 0);
    for seed in 0..PAIRS {
        let pair = pair_of(seed);
        let mut comparison = with_before(&pair, seed);
        let is_moved = match (&comparison.opened.sheet, &comparison.opened.log) {
            (Ok(sheet), Ok(log)) => has_a_moved_row(sheet, log),
            _ => false,
        };
        match (comparison.every_operation(6), is_moved) {
            (Ok(()), false) => without += 1,
            (Ok(()), true) => as_before += 1,
            (Err(_), true) => others += 1,
            (Err(Mismatch(text)), false) => panic!("no row is moved: {text}"),
        }
        comparisons += comparison.comparisons;
        comparisons += reads_and_writes_as_before(&pair, seed).unwrap_or_else(|Mismatch(text)| panic!("{text}"));
    }
    assert!(without > 1000 && others > 200, "{without} {as_before} {others}");
    let told =
        format!("of {PAIRS} pairs {without} have no moved row; of the others {as_before} answer as before, {others} do not");
    writeln!(std::io::stderr(), "{told}").unwrap();
    tell("fractions: as before", comparisons);
}
