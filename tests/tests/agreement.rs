//! Demand 3 and every operation: on a small family whole, on a part of the larger families, on random pairs and on longer logs.
mod common;
use common::{random_pairs, tallied, tell_tally};
use satskhubo_tests::compare::{compare, compare_once, Tally};
use satskhubo_tests::generate::families::{self, Family};
use satskhubo_tests::generate::logs::{log_of, of_length};
use satskhubo_tests::generate::pairs::large_pair_of;
use satskhubo_tests::generate::sheets::{self, largest};
use satskhubo_tests::generate::targeted::{all_before, fullest, with_denials};
use satskhubo_tests::generate::Pair;
use satskhubo_tests::host::Host;
use satskhubo_tests::random::Random;

fn family_logs() -> Vec<Vec<u8>> {
    families::logs().iter().map(|log| log.text()).collect()
}

/// Every sheet of these families with every log.
fn whole(families: Vec<Family>, logs: &[Vec<u8>]) -> Tally {
    let mut whole = Tally::default();
    for family in families {
        let pairs = family.sheets.iter().flat_map(|sheet| logs.iter().map(|log| Pair { sheet: sheet.clone(), log: log.clone() }));
        let tally: Tally = pairs.map(|pair| tallied(compare_once(&Host, &pair))).sum();
        assert_eq!(tally.whole, (family.sheets.len() * logs.len()) as u64, "{}", family.name);
        tell_tally(
            &format!("agreement: {}, all {} sheets times all {} logs", family.name, family.sheets.len(), logs.len()),
            tally,
        );
        whole += tally;
    }
    whole
}

#[test]
fn the_small_family_whole() {
    assert!(whole(families::small(), &family_logs()).comparisons >= 300_000);
}

/// Document 02, A1: sets in the lower half, the upper and both, over two events that are alike but for 32.
#[test]
fn the_families_of_newer_boards_whole() {
    let logs: Vec<Vec<u8>> = families::board_logs().iter().map(|log| log.text()).collect();
    assert!(whole(families::boards(), &logs).comparisons >= 300_000);
}

/// Every so-many-th pair of each family, so that sheets meet different logs; `soak families` compares them whole.
#[test]
fn a_part_of_the_larger_families() {
    let logs = family_logs();
    for (family, stride) in families::large().into_iter().zip([37, 2003, 397, 211]) {
        let all = family.sheets.len() * logs.len();
        let pair =
            |index: usize| Pair { sheet: family.sheets[index / logs.len()].clone(), log: logs[index % logs.len()].clone() };
        let tally = (0..all).step_by(stride).map(|index| tallied(compare(&Host, &pair(index), index as u64, 4))).sum();
        tell_tally(&format!("agreement: {}, a part of {all} pairs", family.name), tally);
    }
}

#[test]
fn longer_logs() {
    let mut random = Random::new(81);
    let mut tally = Tally::default();
    for n in [8, 12, 20, 33] {
        for _ in 0..120 {
            let pair = Pair { sheet: sheets::random(&mut random, &sheets::SMALL), log: of_length(&mut random, n).text() };
            tally += tallied(compare(&Host, &pair, n.into(), 4));
        }
    }
    tell_tally("agreement: longer logs", tally);
}

/// 58 points and 98 rows, and N = 4,096, each with all its numbers; N = 5,120 and 48^6 with some.
#[test]
fn the_largest_sheets() {
    let logs = [&[][..], &[(1, 3)], &[(1, 3), (2, 1), (3, 3)], &[(1, 3), (2, 1), (2, 1), (3, 3)]];
    let mut tally = Tally::default();
    for log in logs.map(|lines| log_of(lines).text()) {
        for sheet in [largest(), with_denials([4; 6])] {
            tally += tallied(compare(&Host, &Pair { sheet, log: log.clone() }, 0, 4096));
        }
        for sheet in [with_denials([4, 4, 4, 4, 4, 5]), all_before(), fullest()] {
            tally += tallied(compare(&Host, &Pair { sheet, log: log.clone() }, 0, 40));
        }
    }
    tell_tally("agreement: largest sheets", tally);
}

/// Document 02, A4: N up to 48^6, with a sample of the numbers, and demand 3 by placements.
#[test]
fn large_sheets_at_random() {
    let tally: Tally = (0..1500).map(|seed| tallied(compare(&Host, &large_pair_of(seed), seed, 8))).sum();
    assert_eq!(tally.whole, tally.pairs);
    tell_tally("agreement: large sheets", tally);
}

#[test]
fn pairs_at_random() {
    tell_tally("agreement: random pairs", random_pairs(&Host, 1_000_000, 10_000));
}
