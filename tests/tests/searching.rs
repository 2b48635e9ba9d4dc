//! The smallest matching or none, in places that are too few, enough and more, on small and on long logs.
mod common;
use common::tell;
use satskhubo_tests::compare::{Comparison, Mismatch};
use satskhubo_tests::generate::logs::{log_of, mixed, of_length, uniform};
use satskhubo_tests::generate::sheets::{self, sheet_s};
use satskhubo_tests::generate::{logs, Pair};
use satskhubo_tests::host::Host;
use satskhubo_tests::outcome::Side;
use satskhubo_tests::plain::Plain;
use satskhubo_tests::random::Random;

fn searches_alike(pair: &Pair, seed: u64, most_numbers: u64) -> u64 {
    let mut comparison = Comparison::new(&Host, pair, seed);
    for number in comparison.numbers(most_numbers) {
        comparison.searching(number).unwrap_or_else(|Mismatch(text)| panic!("{text}"));
    }
    comparison.comparisons
}

#[test]
fn random_pairs() {
    let mut random = Random::new(61);
    let mut comparisons = 0;
    for round in 0..4000 {
        let shape = [&sheets::SMALL, &sheets::MIDDLE, &sheets::LARGE][round % 3];
        let pair = Pair { sheet: sheets::random(&mut random, shape), log: logs::random(&mut random, 6).text() };
        comparisons += searches_alike(&pair, random.next(), 8);
    }
    tell("searching: random", comparisons);
}

#[test]
fn longer_logs() {
    let mut random = Random::new(62);
    let mut comparisons = 0;
    for n in [10, 16, 17, 31, 32, 33, 40] {
        for _ in 0..25 {
            let pair = Pair { sheet: sheets::random(&mut random, &sheets::SMALL), log: of_length(&mut random, n).text() };
            comparisons += searches_alike(&pair, random.next(), 4);
        }
    }
    tell("searching: longer logs", comparisons);
}

/// Logs of thousands of lines beside plain Rust; `long_logs.rs` has the reference beside them.
#[test]
fn logs_of_thousands_of_lines() {
    let mut random = Random::new(63);
    let mut comparisons = 0;
    for n in [1000, 2048, 4000] {
        for _ in 0..12 {
            let (sheet, log) = (sheets::random(&mut random, &sheets::NARROW), of_length(&mut random, n).text());
            for number in 0..=4 {
                assert_eq!(
                    Host.search(&sheet, &log, number, 58),
                    Plain.search(&sheet, &log, number, 58),
                    "{}",
                    String::from_utf8_lossy(&sheet)
                );
                comparisons += 1;
            }
        }
    }
    tell("searching: thousands of lines", comparisons);
}

#[test]
fn sheet_s_on_long_logs() {
    let mut comparisons = 0;
    for log in [mixed(4000), uniform(4000, 3), uniform(4000, 2), uniform(4000, 1)] {
        comparisons += searches_alike(&Pair { sheet: sheet_s(), log: log.text() }, 0, 4);
    }
    tell("searching: S", comparisons);
}

#[test]
fn a_matching_at_the_far_end() {
    let mut lines: Vec<(u32, u32)> = (1..=4000).map(|line| (line, 1)).collect();
    lines[3999].1 = 3;
    let pair = Pair { sheet: sheet_s(), log: log_of(&lines).text() };
    tell("searching: far end", searches_alike(&pair, 0, 4));
}

#[test]
fn the_order_of_refusals() {
    let (good_sheet, good_log) = (sheet_s(), log_of(&[(1, 3)]).text());
    assert_eq!(Host.search(b"", b"", 9, 0).answer, 1);
    assert_eq!(Host.search(&good_sheet, b"", 9, 0).answer, 21);
    assert_eq!(Host.search(&good_sheet, &good_log, 9, 0).answer, 31);
    assert_eq!(Host.search(&good_sheet, &good_log, 4, 2).answer, 33);
    assert_eq!(Host.search(&good_sheet, &good_log, 4, 3).answer, 0);
}
