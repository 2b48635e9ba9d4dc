//! Document 02, A1: boards with events up to 63, over bytes and through the C interface, in every kind that has a set.
mod common;
use common::answers::{found, judged, pair, verdict, written};
use common::{counted, tell};
use satskhubo_tests::compare::compare;
use satskhubo_tests::expected::VIOLATED;
use satskhubo_tests::generate::logs::log_of;
use satskhubo_tests::generate::Pair;
use satskhubo_tests::host::Host;
use satskhubo_tests::outcome::*;

const TOP: u32 = 4_294_967_295;

/// Events of the upper half as b has them, each with the event 32 below it.
const UPPER: [(u32, u32, u32); 4] = [(32, 1, 0), (33, 2, 1), (40, 256, 8), (63, 2_147_483_648, 31)];

/// First line and rows, each section, kind, p, q, a and b.
fn sheet(k: u32, rows: &[[u32; 6]]) -> String {
    let mut text = format!("{k:3}{:3}\n", rows.len());
    for [section, kind, p, q, a, b] in rows {
        text += &format!("{section:3}{kind:3}{p:3}{q:3}{a:11}{b:11}\n");
    }
    text
}

/// A point with event 3, and a consequent of one row.
fn after_a_scan(row: [u32; 6]) -> String {
    sheet(1, &[[0, 1, 1, 0, 8, 0], row])
}

/// The log that keeps the sheet and the one that breaks it, at these positions and by its second row; number 1 is this text, and is found at
/// these positions.
struct Example<'a> {
    sheet: String,
    kept: &'a [(u32, u32)],
    broken: &'a [(u32, u32)],
    at: u32,
    denial: String,
    found: &'a [u32],
}

impl Example<'_> {
    fn holds(&self) {
        let (kept, broken) = (pair(self.sheet.as_bytes(), self.kept), pair(self.sheet.as_bytes(), self.broken));
        assert_eq!(written(&kept.sheet, 1), self.denial);
        assert_eq!((verdict(&kept), found(&kept, 1)), (None, None), "{}", self.sheet);
        assert_eq!(verdict(&broken), Some((vec![self.at], vec![2])), "{}", self.sheet);
        assert_eq!(found(&broken, 1), Some(self.found.to_vec()), "{}", self.sheet);
        assert!(judged(&broken, 1, self.found), "{}", self.sheet);
        let elsewhere: Vec<u32> = self.found.iter().map(|position| position + 1).collect();
        assert!(!judged(&broken, 1, &elsewhere), "{}", self.sheet);
    }
}

#[test]
fn points_of_the_upper_half() {
    for (event, b, below) in UPPER {
        let point = sheet(0, &[[0, 1, 1, 0, 0, b]]);
        let broken = pair(point.as_bytes(), &[(1, below), (2, event), (3, event)]);
        assert_eq!((verdict(&broken), found(&broken, 1)), (Some((vec![2], vec![])), Some(vec![2])));
        assert!(judged(&broken, 1, &[3]) && !judged(&broken, 1, &[1]));
        assert_eq!(written(&broken.sheet, 1), point);
        let kept = pair(point.as_bytes(), &[(1, below)]);
        assert_eq!((verdict(&kept), found(&kept, 1)), (None, None));
    }
    // Both halves: the first line with either.
    let either = sheet(0, &[[0, 1, 1, 0, 2, 1]]);
    for (lines, at) in [([(1, 33), (2, 32), (3, 1)], 2), ([(1, 0), (2, 1), (3, 32)], 2), ([(1, 32), (2, 1), (3, 0)], 1)] {
        assert_eq!(verdict(&pair(either.as_bytes(), &lines)), Some((vec![at], vec![])));
    }
}

#[test]
fn next_with_a_set_of_the_upper_half() {
    for (event, b, below) in UPPER {
        Example {
            sheet: after_a_scan([1, 2, 11, 1, 0, b]),
            kept: &[(1, 3), (2, below), (3, event)],
            broken: &[(1, event), (2, 3), (3, below)],
            at: 2,
            denial: after_a_scan([1, 9, 1, 99, 0, b]),
            found: &[2],
        }
        .holds();
    }
}

#[test]
fn last_with_a_set_of_the_upper_half() {
    for (event, b, below) in UPPER {
        Example {
            sheet: after_a_scan([1, 3, 11, 1, 0, b]),
            kept: &[(1, event), (2, below), (3, 3)],
            broken: &[(1, below), (2, 3), (3, event)],
            at: 2,
            denial: after_a_scan([1, 9, 0, 1, 0, b]),
            found: &[2],
        }
        .holds();
    }
}

#[test]
fn free_with_a_set_of_the_upper_half() {
    for (event, b, below) in UPPER {
        Example {
            sheet: after_a_scan([1, 9, 0, 1, 0, b]),
            kept: &[(1, below), (2, 3), (3, event)],
            broken: &[(1, below), (2, event), (3, 3)],
            at: 3,
            denial: sheet(1, &[[0, 1, 1, 0, 8, 0], [1, 1, 19, 0, 0, b], [1, 6, 19, 1, 0, 0]]),
            found: &[3, 2],
        }
        .holds();
    }
}

#[test]
fn event_with_a_set_of_the_upper_half() {
    for (event, b, below) in UPPER {
        let point = [0, 1, 1, 0, 1 << below, b];
        Example {
            sheet: sheet(1, &[point, [1, 12, 1, 0, 0, b]]),
            kept: &[(1, event), (2, 5)],
            broken: &[(1, event), (2, below)],
            at: 2,
            denial: sheet(1, &[point, [1, 12, 1, 0, TOP, TOP - b]]),
            found: &[2],
        }
        .holds();
    }
}

/// NEXT and LAST of a set in both halves are of the nearest line, whichever half its event is in.
#[test]
fn the_nearest_line_of_both_halves() {
    for (first, second) in [(1, 40), (40, 1), (40, 40), (1, 1)] {
        let next =
            after_a_scan([1, 2, 11, 1, 2, 256]).replacen("  1  2\n", "  1  3\n", 1) + "  1 10 11  1          0          6\n";
        assert_eq!(verdict(&pair(next.as_bytes(), &[(1, 3), (6, first), (7, second)])), None);
        assert_eq!(verdict(&pair(next.as_bytes(), &[(1, 3), (7, first), (8, second)])), Some((vec![1], vec![3])));
        let last = next.replace("  1  2 11", "  1  3 11");
        assert_eq!(verdict(&pair(last.as_bytes(), &[(1, first), (2, second), (7, 3)])), None);
        assert_eq!(verdict(&pair(last.as_bytes(), &[(0, first), (1, second), (7, 3)])), Some((vec![3], vec![3])));
    }
}

#[test]
fn denials_carry_both_halves() {
    let (a, b) = (4_026_531_841, 2_147_483_650);
    assert_eq!(written(after_a_scan([1, 2, 11, 1, a, b]).as_bytes(), 1), after_a_scan([1, 9, 1, 99, a, b]));
    assert_eq!(written(after_a_scan([1, 3, 11, 1, a, b]).as_bytes(), 1), after_a_scan([1, 9, 0, 1, a, b]));
    let points = [[0, 1, 1, 0, a, b], [0, 1, 2, 0, 0, TOP]];
    let with = |rows: &[[u32; 6]]| sheet(1, &[&points[..], rows].concat());
    let free = with(&[[1, 9, 1, 2, a, b]]);
    let point = [1, 1, 19, 0, a, b];
    assert_eq!(written(free.as_bytes(), 1), with(&[point, [1, 6, 1, 19, 0, 0], [1, 6, 19, 2, 0, 0]]));
    assert_eq!(written(free.as_bytes(), 2), with(&[point, [1, 6, 2, 19, 0, 0], [1, 6, 19, 1, 0, 0]]));
    assert_eq!(written(with(&[[1, 9, 0, 99, a, b]]).as_bytes(), 1), with(&[point]));
    assert_eq!(written(with(&[[1, 9, 1, 99, a, b]]).as_bytes(), 1), with(&[point, [1, 6, 1, 19, 0, 0]]));
    // The rows that a denial brings have theirs too.
    let brought = [1, 2, 11, 1, a, b];
    assert_eq!(written(with(&[brought, [1, 6, 11, 2, 0, 0]]).as_bytes(), 2), with(&[brought, [1, 6, 2, 11, 0, 0]]));
}

/// EVENT a b is denied by 4,294,967,295 - a and 4,294,967,295 - b, also where b is 0, as in older sheets.
#[test]
fn event_is_denied_in_both_halves() {
    let of_event = |a, b| sheet(1, &[[0, 1, 1, 0, TOP, TOP], [1, 12, 1, 0, a, b]]);
    let texts = [
        (4, 0, "  1 12  1  0 4294967291 4294967295\n"),
        (0, 0, "  1 12  1  0 4294967295 4294967295\n"),
        (TOP, 0, "  1 12  1  0          0 4294967295\n"),
        (0, TOP, "  1 12  1  0 4294967295          0\n"),
        (TOP, TOP, "  1 12  1  0          0          0\n"),
        (1, 2, "  1 12  1  0 4294967294 4294967293\n"),
    ];
    for (a, b, denial) in texts {
        let due = format!("  1  2\n  0  1  1  0 4294967295 4294967295\n{denial}");
        assert_eq!(written(of_event(a, b).as_bytes(), 1), due);
    }
    // The whole lower half is denied by the upper one, and all by none.
    let lower = |event| pair(of_event(TOP, 0).as_bytes(), &[(1, event)]);
    let all = |event| pair(of_event(TOP, TOP).as_bytes(), &[(1, event)]);
    for event in 0..64 {
        let is_upper = event > 31;
        assert_eq!(verdict(&lower(event)), is_upper.then(|| (vec![1], vec![2])), "{event}");
        assert_eq!(found(&lower(event), 1), is_upper.then(|| vec![1]), "{event}");
        assert_eq!((verdict(&all(event)), found(&all(event), 1)), (None, None), "{event}");
    }
    // A line with event 33 where 0 is due is violated, and the pattern matches.
    let wrong = pair(sheet(1, &[[0, 1, 1, 0, 0, 2], [1, 12, 1, 0, 1, 0]]).as_bytes(), &[(1, 33)]);
    assert_eq!((verdict(&wrong), found(&wrong, 1)), (Some((vec![1], vec![2])), Some(vec![1])));
}

/// Every event against every set of one event and of all others, in each kind that has a set.
#[test]
fn no_event_is_taken_for_another() {
    let mut comparisons = 0;
    for set_event in 0..64 {
        let one: u64 = 1 << set_event;
        for event in 0..64 {
            let is_one = event == set_event;
            for (set, is_in) in [(one, is_one), (!one, !is_one)] {
                let (a, b) = (set as u32, (set >> 32) as u32);
                let log = log_of(&[(1, event)]).text();
                let is_violated = |k: u32, rows: &[[u32; 6]]| Host.check_number(sheet(k, rows).as_bytes(), &log) == VIOLATED;
                let of_log = [
                    is_violated(0, &[[0, 1, 1, 0, a, b]]),
                    !is_violated(1, &[[1, 2, 11, 0, a, b]]),
                    !is_violated(1, &[[1, 3, 11, 99, a, b]]),
                    is_violated(1, &[[1, 9, 0, 99, a, b]]),
                    !is_violated(1, &[[0, 1, 1, 0, TOP, TOP], [1, 12, 1, 0, a, b]]),
                ];
                assert_eq!(of_log, [is_in; 5], "event {event}, set {set}");
                comparisons += 5;
            }
        }
    }
    tell("boards: events and sets", comparisons);
}

/// Everything lent is as it was: the count, a buffer, places, the check's findings.
fn refuses(text: &str, refusal: u32, row: usize) {
    let (sheet, log) = (text.as_bytes(), log_of(&[(1, 40)]).text());
    assert_eq!(Host.read_sheet(sheet), SheetRead { answer: refusal, count: PATTERN_COUNT }, "{text}");
    let written = Host.write(sheet, 1, 400);
    assert_eq!(written, Written { answer: refusal, buffer: guarded(400, PATTERN), length: PATTERN_SIZE }, "{text}");
    let searched = Host.search(sheet, &log, 1, 8);
    assert_eq!(searched, Searched { answer: refusal, places: guarded(8, PATTERN_WORD), found: PATTERN }, "{text}");
    let unwritten = Checked {
        answer: refusal,
        positions: guarded(4, PATTERN_WORD),
        points: PATTERN_WORD,
        rows: guarded(6, PATTERN_WORD),
        consequents: PATTERN_WORD,
    };
    assert_eq!(Host.check(sheet, &log), unwritten, "{text}");
    let shown = Host.show(sheet, &log);
    assert_eq!(shown, Shown { answer: refusal, of_log: 0, offset: 7 + 35 * (row - 1), length: 35 }, "{text}");
    counted(compare(&Host, &Pair { sheet: sheet.to_vec(), log }, 0, 4));
}

#[test]
fn refusal_9_as_it_is_now() {
    let points = [[0, 1, 1, 0, 0, 256], [0, 1, 2, 0, 8, 0]];
    let with = |row: [u32; 6]| sheet(1, &[points[0], points[1], row]);
    for b in [1, 2, 256, 2_147_483_648, TOP] {
        // Kinds 4 to 8 do not use b.
        refuses(&with([1, 4, 11, 1, 2, b]), 9, 3);
        refuses(&with([1, 5, 11, 1, 2, b]), 9, 3);
        for kind in [6, 7, 8] {
            refuses(&with([1, kind, 1, 2, 0, b]), 9, 3);
            refuses(&with([0, kind, 1, 2, 0, b]), 9, 3);
        }
        // b does not stand in for q, and limits stay limits.
        refuses(&with([0, 1, 3, 1, 0, b]), 9, 3);
        refuses(&with([1, 12, 1, 2, 0, b]), 9, 3);
        refuses(&with([1, 10, 1, 2, b, b - 1]), 9, 3);
        refuses(&with([1, 11, 1, 2, b, b - 1]), 9, 3);
        // It is the upper half of a set, with the lower or alone.
        for a in [0, 8, TOP] {
            for row in [[0, 1, 3, 0, a, b], [1, 2, 11, 1, a, b], [1, 3, 11, 1, a, b], [1, 9, 1, 2, a, b], [1, 12, 1, 0, a, b]] {
                assert_eq!(Host.read_sheet(with(row).as_bytes()).answer, 0, "{row:?}");
            }
        }
    }
    // Both halves 0: the empty set, which EVENT alone may have.
    for row in [[0, 1, 3, 0, 0, 0], [1, 2, 11, 1, 0, 0], [1, 3, 11, 1, 0, 0], [1, 9, 1, 2, 0, 0]] {
        refuses(&with(row), 9, 3);
    }
    assert_eq!(Host.read_sheet(with([1, 12, 1, 0, 0, 0]).as_bytes()), SheetRead { answer: 0, count: 1 });
}

#[test]
fn refusal_25_is_for_events_over_63() {
    let sheet = sheet(0, &[[0, 1, 1, 0, 0, 1]]);
    for event in 0..64 {
        assert_eq!(Host.read_log(&log_of(&[(1, 3), (2, event)]).text()), LogRead { answer: 0, lines: 2 }, "{event}");
    }
    for event in (64..=300).chain([320, 511, 512, 576, 998, 999]) {
        let log = log_of(&[(1, 3), (2, event)]).text();
        assert_eq!(Host.read_log(&log), LogRead { answer: 25, lines: PATTERN_WORD }, "{event}");
        assert_eq!(Host.show(sheet.as_bytes(), &log), Shown { answer: 25, of_log: 1, offset: 43, length: 15 }, "{event}");
        counted(compare(&Host, &Pair { sheet: sheet.clone().into_bytes(), log }, 0, 2));
    }
}
