//! Placements judged: every one of small logs, near misses, wrong numbers and junk past the number.
mod common;
use common::tell;
use satskhubo_tests::compare::{Comparison, Mismatch};
use satskhubo_tests::generate::logs::log_of;
use satskhubo_tests::generate::sheets::{self, sheet_s};
use satskhubo_tests::generate::{logs, Pair};
use satskhubo_tests::host::Host;
use satskhubo_tests::outcome::{Judged, Side, Table, PATTERN};
use satskhubo_tests::random::Random;

fn fail(Mismatch(text): Mismatch) -> ! {
    panic!("{text}")
}

#[test]
fn every_placement_near_a_small_log() {
    let pair = Pair { sheet: sheet_s(), log: log_of(&[(100, 2), (200, 1), (300, 3), (900, 3)]).text() };
    let mut comparison = Comparison::new(&Host, &pair, 0);
    for number in 0..=5 {
        for x in 0..=6 {
            for y in 0..=6 {
                for z in 0..=6 {
                    for count in 0..=4 {
                        comparison
                            .judge_one(number, &Table { count, ..Table::of(&[x, y, z], u32::MAX) })
                            .unwrap_or_else(|mismatch| fail(mismatch));
                    }
                }
            }
        }
    }
    tell("judging: every placement", comparison.comparisons);
}

#[test]
fn no_points_and_no_lines() {
    let judged = |sheet: &[u8], log: &[u8], count| Host.judge(sheet, log, 1, &Table { count, ..Table::of(&[], 7) });
    let empty = log_of(&[]).text();
    assert_eq!(judged(b"  0  0\n", &empty, 0), Judged { answer: 0, met: 1 });
    assert_eq!(judged(b"  0  0\n", &empty, 1), Judged { answer: 34, met: PATTERN });
    let within = b"  0  1\n  0 10  0 99          1          3\n";
    assert_eq!(judged(within, &empty, 0), Judged { answer: 0, met: 0 });
    assert_eq!(judged(within, b"    0          5          7\n", 0), Judged { answer: 0, met: 1 });
    assert_eq!(judged(within, b"    0          5          8\n", 0), Judged { answer: 0, met: 0 });
}

#[test]
fn the_order_of_refusals() {
    let (good_sheet, good_log) = (sheet_s(), log_of(&[(1, 3)]).text());
    let table = Table { count: 7, ..Table::of(&[1], 0) };
    assert_eq!(Host.judge(b"", b"", 9, &table).answer, 1);
    assert_eq!(Host.judge(&good_sheet, b"", 9, &table).answer, 21);
    assert_eq!(Host.judge(&good_sheet, &good_log, 9, &table).answer, 31);
    assert_eq!(Host.judge(&good_sheet, &good_log, 4, &table).answer, 34);
}

#[test]
fn random_pairs_and_tables() {
    let mut random = Random::new(51);
    let mut comparisons = 0;
    for round in 0..1500 {
        let shape = [&sheets::SMALL, &sheets::MIDDLE, &sheets::LARGE][round % 3];
        let pair = Pair { sheet: sheets::random(&mut random, shape), log: logs::random(&mut random, 5).text() };
        let mut comparison = Comparison::new(&Host, &pair, random.next());
        for number in comparison.numbers(3) {
            let matching = comparison.opened.search(number, 58).unwrap_or(None);
            comparison.judging(number, matching).unwrap_or_else(|mismatch| fail(mismatch));
        }
        comparisons += comparison.comparisons;
    }
    tell("judging: random", comparisons);
}
