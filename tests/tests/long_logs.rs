//! Logs of 500 to 4,000 lines with the reference: every number searched, its matching and near misses judged, the check, and demand 3.
mod common;
use common::{tallied, tell, tell_tally};
use satskhubo_tests::compare::{compare_long, Comparison, Mismatch, Tally};
use satskhubo_tests::generate::logs::{log_of, mixed, uniform};
use satskhubo_tests::generate::pairs::long_pair_of;
use satskhubo_tests::generate::sheets::{largest, sheet_s};
use satskhubo_tests::generate::Pair;
use satskhubo_tests::host::Host;

fn random_pairs(first_seed: u64, pairs: u64) -> Tally {
    (first_seed..first_seed + pairs).map(|seed| tallied(compare_long(&Host, &long_pair_of(seed), seed))).sum()
}

#[test]
fn sheets_at_random() {
    tell_tally("long logs: random", random_pairs(0, 150));
}

#[test]
fn further_sheets_at_random() {
    tell_tally("long logs: further random", random_pairs(7000, 150));
}

#[test]
fn s_with_a_matching_late_or_nowhere() {
    let mut late: Vec<(u32, u32)> = (1..=4000).map(|line| (line, 2)).collect();
    late[3998].1 = 1;
    late[3999].1 = 3;
    let logs = [mixed(500), mixed(4000), uniform(4000, 3), uniform(4000, 2), log_of(&late)];
    let tally = logs.map(|log| tallied(compare_long(&Host, &Pair { sheet: sheet_s(), log: log.text() }, 0))).into_iter().sum();
    tell_tally("long logs: S", tally);
}

/// The largest sheet and the largest log, with the one matching at its end.
#[test]
fn fifty_eight_points_on_four_thousand_lines() {
    let mut lines: Vec<(u32, u32)> = (1..=4000).map(|line| (line, 2)).collect();
    lines[3997..].copy_from_slice(&[(3998, 3), (3999, 1), (4000, 3)]);
    let pair = Pair { sheet: largest(), log: log_of(&lines).text() };
    let mut comparison = Comparison::new(&Host, &pair, 0);
    let compared = comparison.readings().and_then(|()| comparison.checks()).and_then(|()| {
        let matching = comparison.searching(1)?;
        assert_eq!(matching.as_ref().map(Vec::len), Some(58));
        comparison.judging(1, matching)
    });
    compared.unwrap_or_else(|Mismatch(text)| panic!("{text}"));
    tell("long logs: largest", comparison.comparisons);
}
