//! The check with its findings, on small and on long logs.
mod common;
use common::tell;
use satskhubo_tests::compare::{Comparison, Mismatch};
use satskhubo_tests::generate::logs::{mixed, of_length, uniform};
use satskhubo_tests::generate::sheets::{self, sheet_s};
use satskhubo_tests::generate::{logs, Pair};
use satskhubo_tests::host::Host;
use satskhubo_tests::outcome::Side;
use satskhubo_tests::plain::Plain;
use satskhubo_tests::random::Random;

fn checks_alike(pair: &Pair, seed: u64) -> u64 {
    let mut comparison = Comparison::new(&Host, pair, seed);
    comparison.checks().unwrap_or_else(|Mismatch(text)| panic!("{text}"));
    comparison.comparisons
}

#[test]
fn random_pairs() {
    let mut random = Random::new(71);
    let mut comparisons = 0;
    for round in 0..6000 {
        let shape = [&sheets::SMALL, &sheets::MIDDLE, &sheets::LARGE][round % 3];
        let pair = Pair { sheet: sheets::random(&mut random, shape), log: logs::random(&mut random, 6).text() };
        comparisons += checks_alike(&pair, random.next());
    }
    tell("checking: random", comparisons);
}

#[test]
fn longer_logs() {
    let mut random = Random::new(72);
    let mut comparisons = 0;
    for n in [10, 16, 17, 31, 32, 33, 60] {
        for _ in 0..60 {
            let pair = Pair { sheet: sheets::random(&mut random, &sheets::SMALL), log: of_length(&mut random, n).text() };
            comparisons += checks_alike(&pair, random.next());
        }
    }
    tell("checking: longer logs", comparisons);
}

/// Many sheets on logs of thousands of lines, beside plain Rust; `long_logs.rs` has the reference beside them.
#[test]
fn logs_of_thousands_of_lines() {
    let mut random = Random::new(73);
    let mut comparisons = 0;
    for n in [1000, 2048, 4000] {
        for _ in 0..40 {
            let (sheet, log) = (sheets::random(&mut random, &sheets::NARROW), of_length(&mut random, n).text());
            assert_eq!(Host.check(&sheet, &log), Plain.check(&sheet, &log), "{}", String::from_utf8_lossy(&sheet));
            comparisons += 1;
        }
    }
    tell("checking: thousands of lines", comparisons);
}

#[test]
fn sheet_s_on_long_logs() {
    let mut comparisons = 0;
    for log in [mixed(4000), uniform(4000, 3), uniform(4000, 1), uniform(0, 3)] {
        comparisons += checks_alike(&Pair { sheet: sheet_s(), log: log.text() }, 0);
    }
    tell("checking: S", comparisons);
}
